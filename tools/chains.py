"""Which of several checks, each behind others, is begun next, and with how many jobs."""
import functools
import os
import pathlib

TOP = pathlib.Path(__file__).resolve().parents[1]
# What checks took of the processors when they were last measured, and what a line took of one that isn't there.
COSTS, A_LINE = TOP / "tools" / "costs", 0.1
# A further job reads, again and again, what the crate stands on. So each is for so many lines of the crate's own, and
# for one more of them for so many lines below. Where processors would wait else, that reading costs nothing.
LINES_OF_A_JOB, LINES_BELOW = 400, 25
# How far a check steps back behind the one at the head of the longest chain, where its own is nearly as long, and else.
NEARLY, BESIDE = 3, 10
# From which part of the head's lines on a chain is nearly as long.
NEAR = 0.6


@functools.cache
def uses_of_each():
    """The crates of this repository that each crate names in crates.txt."""
    rows = [line.partition("#")[0].partition(":") for line in (TOP / "crates.txt").read_text().split("\n")]
    uses = {row[0].split()[0]: row[2].split() for row in rows if row[0].strip()}
    return {name: [it for it in of if it in uses] for name, of in uses.items()}


@functools.cache
def below(name):
    """The crates below one, lowest first."""
    found = []
    for use in uses_of_each()[name]:
        found += [it for it in (*below(use), use) if it not in found]
    return found


@functools.cache
def lines_of(name):
    """How many lines a crate has, of code, definitions and proofs."""
    folder = TOP / "crates" / name
    files = [it for part in ("src", "specs", "proofs") for it in (folder / part).rglob("*") if it.is_file()]
    return sum(it.read_bytes().count(b"\n") for it in files)


def jobs_that_pay(name, most, any_wait=False):
    """How many jobs a crate's check has where it is first: an odd number, since one hands out work to the others.

    any_wait: whether processors would wait else.
    """
    reading = 0 if any_wait else sum(lines_of(it) for it in below(name)) / LINES_BELOW
    return min(most, 1 + int(lines_of(name) / (LINES_OF_A_JOB + reading)) // 2 * 2)


@functools.cache
def measured():
    """By each crate that was measured the seconds of its check, and those of the check with its tests (0: it has none)."""
    rows = (row.split() for row in COSTS.read_text(encoding="utf-8").splitlines() if not row.startswith("#"))
    return {name: (int(proof), int(tests)) for name, proof, tests in rows}


def cost(name, lines, tests=False):
    """The seconds that a crate's check, or that with its tests, takes of the processors, by its lines if need be."""
    return measured()[name][tests] if name in measured() else lines * A_LINE


def behind_each(waits, costs):
    """What the longest chain of checks that wait for each costs, its own among them.

    waits: by each check those that it waits for, which stand before it; costs: what each costs.
    """
    behind = dict.fromkeys(waits, 0)
    for it in reversed(list(waits)):
        behind[it] += costs[it]
        for below in waits[it]:
            behind[below] = max(behind[below], behind[it])
    return behind


class Order:
    """The check at the head of the longest chain of those that are left goes first, with all jobs that pay, but for a
    processor that it leaves to each other check whose chain is nearly as long.

    A check ends with minutes in which few functions are left, so others go beside it at a lower priority, as far as
    memory bears them: with half of the jobs that pay where their chain is nearly as long, since it comes to the head
    soon and would be held up, and else with one, since each job more takes processor time. So they have one as well
    where there are more checks than processors.
    """

    def __init__(self, waits, costs, most, memory, takes):
        """most: how many jobs a check may have, and where processors would wait else; takes: how much of the memory it
        takes with so many."""
        self.waits, self.costs, self.behind = waits, costs, behind_each(waits, costs)
        self.most, self.memory, self.takes = most, memory, takes
        self.processors = len(os.sched_getaffinity(0))

    def next(self, left, running):
        """The next check, its jobs, and how far it steps back; None where none is ready, or memory bears none.

        left: those that aren't begun; running: the jobs of each that isn't ended.
        """
        ready = [it for it in left if not any(below in left or below in running for below in self.waits[it])]
        head = max((self.behind[it] for it in running), default=0)
        room = self.memory - sum(self.takes(it, jobs) for it, jobs in running.items())
        are_few = sum(self.costs[it] > 0 for it in ready) + len(running) <= self.processors
        longest = max((self.behind[it] for it in (*ready, *running)), default=0)
        near = [it for it in (*ready, *running) if self.behind[it] >= NEAR * longest]
        for it in sorted(ready, key=self.behind.get, reverse=True):
            is_head, is_near = self.behind[it] >= head, self.behind[it] >= NEAR * head
            pay = self.most(it, is_near and are_few)
            most = min(pay, 1 + max(1, self.processors - sum(other != it for other in near)))
            # of those that work; one hands it out
            half = 1 + (pay - 1) // 4 * 2
            for jobs in (most, half) if is_head else (half, 1) if is_near and are_few else (1,):
                if not running or self.takes(it, jobs) <= room:
                    return it, jobs, 0 if is_head else NEARLY if is_near else BESIDE
            if is_near:
                # What would begin in its place would take its room again and again.
                return None
        return None
