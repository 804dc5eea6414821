"""Runs loops of giop_bench beside their twins in plain Rust, in turn, and prints a row of a table for each."""
import pathlib
import resource
import statistics
import subprocess
import sys
import tempfile

TOP = pathlib.Path(__file__).resolve().parents[1]
OURS = TOP / "crates" / "giop_bench" / "out" / "giop_bench"
HEAD = """| Loop | giop_bench, s | its twin, s | Ratio | of the medians | Memory | its twin's |
|---|---|---|---|---|---|---|"""


class Loop:
    """A loop: its words to giop_bench and to the twin, whether what the system takes counts in its time, and whether both
    must print one checksum."""

    def __init__(self, ours, theirs, system=True, sums=True):
        self.ours, self.theirs, self.system, self.sums = ours.split(), theirs.split(), system, sums


def timed(words, system):
    """The processor time of a program, the most memory it had in MB, and what it printed."""
    before = resource.getrusage(resource.RUSAGE_CHILDREN)
    # GNU time tells the program's own memory: a child of this one would be told this one's.
    done = subprocess.run(["/usr/bin/time", "-f", "%M", *map(str, words)], check=True, capture_output=True, text=True)
    after = resource.getrusage(resource.RUSAGE_CHILDREN)
    took = after.ru_utime - before.ru_utime + (after.ru_stime - before.ru_stime if system else 0)
    return took, int(done.stderr) / 1024, done.stdout


def shown(times):
    """The least of some times, and in brackets the median and the most."""
    return f"{min(times):.3f} ({statistics.median(times):.3f}, {max(times):.3f})"


def built(folder, source):
    """The twin of this source, made in a folder."""
    twin = pathlib.Path(folder) / "twin"
    subprocess.run(["rustc", "--edition=2021", "-O", "-o", twin, source], check=True)
    return twin


def compare(twin, loop, runs):
    """Runs both programs so many times, and prints how they did; whether they printed one checksum."""
    ours, theirs = [], []
    for _ in range(runs):
        ours.append(timed([OURS, *loop.ours], loop.system))
        theirs.append(timed([twin, *loop.theirs], loop.system))
        if loop.sums and ours[-1][2] != theirs[-1][2]:
            print(f"{loop.ours[0]}: the checksums differ: {ours[-1][2].strip()} and {theirs[-1][2].strip()}")
            return False
    (one, most, _), (other, beside, _) = zip(*ours), zip(*theirs)
    middle = statistics.median(one) / statistics.median(other)
    name = loop.ours[0] if loop.sums else f"{loop.ours[0]} beside copies"
    print(f"| {name} | {shown(one)} | {shown(other)} | {min(one) / min(other):.2f} | {middle:.2f} |"
          f" {max(most):.1f} MB | {max(beside):.1f} MB |", flush=True)
    return True


def run(source, loops):
    """Compares each loop, as often as the command line says, 5 times without; the status to end with."""
    runs = int(sys.argv[1]) if len(sys.argv) > 1 else 5
    with tempfile.TemporaryDirectory() as folder:
        twin = built(folder, source)
        print(HEAD)
        return 0 if all([compare(twin, loop, runs) for loop in loops]) else 1
