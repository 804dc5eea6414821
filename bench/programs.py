"""Measures giopctl against a plain Rust program that prints the same."""
import os
import pathlib
import statistics
import subprocess

TOP = pathlib.Path(__file__).resolve().parents[1]
OUT = TOP / 'bench' / 'out'
GIOPCTL = TOP / 'crates' / 'giopctl' / 'out' / 'giopctl'
INTERFACE = TOP / 'examples' / 'calculator.json'
# A processor whose core is shared runs at two speeds: so many rounds meet the faster of them.
ROUNDS = 15


def build(source):
    """Builds giopctl, and the twin of this source; returns the twin's path."""
    OUT.mkdir(exist_ok=True)
    twin = OUT / f'{source.parent.name}_twin'
    subprocess.run(['rustc', '-O', '--edition', '2024', '-o', twin, source], check=True)
    subprocess.run([TOP / 'giopctl', '--version'], check=True, stdout=subprocess.DEVNULL)
    return twin


def input_of(kind, megabytes):
    """Writes the input of this kind, and returns its path."""
    file = OUT / f'{kind}.giop'
    subprocess.run([TOP / 'bench' / 'make', kind, file, megabytes], check=True)
    return file


def same_output(ours, twin):
    pipes = [subprocess.Popen(words, stdout=subprocess.PIPE) for words in (ours, twin)]
    same = True
    while same:
        parts = [pipe.stdout.read(1 << 20) for pipe in pipes]
        same = parts[0] == parts[1]
        if not parts[0]:
            break
    for pipe in pipes:
        pipe.stdout.close()
    return same and len({pipe.wait() for pipe in pipes}) == 1


def seconds_of(words):
    """Processor time, which other work on the machine disturbs least."""
    child = subprocess.Popen(words, stdout=subprocess.DEVNULL)
    _, _, usage = os.wait4(child.pid, 0)
    child.returncode = 0
    return usage.ru_utime + usage.ru_stime


def peak_of(words):
    """The peak of the resident memory in octets. A child of this script would count it too."""
    words = ['/usr/bin/time', '-f', '%M'] + words
    ran = subprocess.run(words, stdout=subprocess.DEVNULL, stderr=subprocess.PIPE, text=True)
    return int(ran.stderr.split()[-1]) * 1024


def compare(kind, ours, twin):
    """Prints how both do, and returns whether they print the same."""
    same = same_output(ours, twin)
    rounds = [[seconds_of(words) for words in (ours, twin)] for _ in range(ROUNDS)]
    series = list(zip(*rounds))
    best, middle = [min(times) for times in series], [statistics.median(times) for times in series]
    peaks = [peak_of(words) / 1e6 for words in (ours, twin)]
    print(f'{kind:9} {"same" if same else "OTHER"} output; giopctl {best[0]:.3f} s,',
          f'plain Rust {best[1]:.3f} s, ratio {best[0] / best[1]:.2f} (medians {middle[0] / middle[1]:.2f}); peak memory',
          f'{peaks[0]:.1f} MB, plain Rust {peaks[1]:.1f} MB', flush=True)
    return same
