#!/usr/bin/env python3
"""Measures `refrun run` on a standard set of workloads, next to Clojure.

workloads.sh calls this: workloads.py PROGRAM [--against PROGRAM] [--steps N] [--rounds N] [--warm-up S] [SHAPE..]. The shapes are

alter-1, alter-4, alter-64          so many workers add 1 to one ref by alter
commute-1, commute-4, commute-64    the same by commute
tally                               four workers add 1 to the tally
own-64, own-4096                    four workers add 1 to one of so many refs, where no two take the same
transfers-64, -1000, -4096          four workers take some from a ref and add it to another one
floor                               the same between 64 refs that may not go below 0
reads, ensures                      four workers ask 16 of 100 refs something, or ensure them, and one time in eight add to one
one-atom, atoms                     four workers add 1 to one atom, or to one of 64
agents, agents-4096, agents-tx      four workers send to 64 or 4,096 agents, or to 64 in transactions
limits                              4,096 refs, atoms and agents each, 64 workers of up to 10,000 steps of all kinds, one of each
                                    a transaction of 256 operations of 8 arguments, and a pool of 16
"""
import argparse
import glob
import os
import shutil
import statistics
import subprocess
import sys
import tempfile
import time
from dataclasses import dataclass

from compare import MIB, Refused, output_of
from workload_shapes import MOST_STEPS, SHAPES, Wrong, check_peer, check_report, write

HERE = os.path.dirname(os.path.abspath(__file__))
# Twice the steps are to take no more than this many times as long, and as much memory.
MOST_GROWTH = 2.3
# The least MiB a second of `check`.
LEAST_CHECKED = 20
# No transaction is to give up.
RUN = ["run", "--tries", "1000000"]


def clojure():
    """The words that run a Clojure script, or None. A jar is looked for where Debian and Maven put it."""
    for name in ("clojure", "clj"):
        if shutil.which(name):
            return [name]
    jars = glob.glob("/usr/share/java/clojure.jar") or glob.glob("/usr/share/java/clojure-1*.jar")
    parts = [glob.glob(f"/usr/share/java/{name}.alpha.jar") for name in ("spec", "core.specs")]
    if not (jars and all(parts)):
        maven = os.path.expanduser("~/.m2/repository/org/clojure")
        jars = sorted(glob.glob(f"{maven}/clojure/*/clojure-*[0-9].jar"))
        parts = [sorted(glob.glob(f"{maven}/{name}.alpha/*/{name}.alpha-*[0-9].jar")) for name in ("spec", "core.specs")]
    if not (shutil.which("java") and jars and all(parts)):
        return None
    return ["java", "-cp", ":".join([jars[-1], *(it[-1] for it in parts)]), "clojure.main"]


def run_once(words, text):
    """The seconds of a whole process, the KiB that it had at most, and the lines that it printed."""
    with tempfile.TemporaryFile() as out, open(text, "rb") as given:
        start = time.monotonic()
        child = subprocess.Popen(words, stdin=given, stdout=out)
        _, status, used = os.wait4(child.pid, 0)
        took = time.monotonic() - start
        child.returncode = os.WEXITSTATUS(status) if os.WIFEXITED(status) else -os.WTERMSIG(status)
        out.seek(0)
        lines = out.read().decode().splitlines()
    if child.returncode:
        raise Refused(f"{' '.join(words[1:])} ended with status {child.returncode}")
    return took, used.ru_maxrss, lines


@dataclass
class Measured:
    """Medians of the seconds of `run` and of `check` and of what is between them, and the most KiB of a `run`."""
    run: float
    check: float
    between: float
    peak: int


def turn(program, text, wanted):
    """The seconds of one `run`, of one `check`, and of what is between them, and the KiB of the `run`."""
    check, _, lines = run_once([program, "check"], text)
    if lines != ["workload ok"]:
        raise Wrong(f"check says {lines[:1]}")
    run, peak, lines = run_once([program, *RUN], text)
    check_report(lines, wanted)
    return run, check, run - check, peak


def measured(programs, text, wanted, rounds):
    """What each of the programs takes, in turns."""
    turns = [[turn(program, text, wanted) for program in programs] for _ in range(rounds)]
    found = []
    for of_one in zip(*turns):
        runs, checks, between, peaks = zip(*of_one)
        found.append(Measured(statistics.median(runs), statistics.median(checks), statistics.median(between), max(peaks)))
    return found


def peer(words, text, wanted, rounds, warm_up):
    """The median seconds of Clojure."""
    lines = output_of([*words, f"{HERE}/workloads.clj", text, str(rounds), str(round(warm_up * 1000))]).splitlines()
    check_peer([it for it in lines if not it.startswith("round ")], wanted)
    return statistics.median(int(it.split()[1]) for it in lines if it.startswith("round ")) / 1e9


def a_second(steps, seconds):
    """Steps a second, or that the time is too short to tell."""
    return f"{steps / seconds:,.0f}" if seconds > 0 else "too short"


def head(words, has_older):
    print(f"{'shape':<16}{'workers':>8}{'steps':>9}{'a second':>12}{'run s':>8}{'check s':>9}{'MiB':>9}"
          f"{'twice: time':>14}{'memory':>8}" + (f"{'older: time':>14}{'check':>8}{'memory':>8}" if has_older else "")
          + (f"{'Clojure a second':>19}{'its time over ours':>20}" if words else ""))


def over(theirs, ours):
    """A ratio, or that the time is too short to tell."""
    return f"{theirs / ours:.2f}" if ours > 0 else "-"


def beside_older(older, ours):
    """What an older build takes over what ours takes."""
    return f"{over(older.between, ours.between):>14}{over(older.check, ours.check):>8}{over(older.peak, ours.peak):>8}"


class Targets:
    """Which shapes miss a target."""

    def __init__(self):
        self.all, self.missed = 0, {"time": [], "memory": []}

    def count(self, shape, time, memory):
        self.all += 1
        for what, factor in (("time", time), ("memory", memory)):
            if not factor <= MOST_GROWTH:
                self.missed[what].append(shape)

    def tell(self):
        for what, missed in self.missed.items():
            print(f"at most {MOST_GROWTH} times the {what} at twice the steps: {self.all - len(missed)} of {self.all} shapes"
                  + (f", not {', '.join(missed)}" if missed else ""))


def measure(name, given, words, folder, targets):
    """Prints the row of a shape, and answers the text of its greater workload and what each program takes for it."""
    shape = SHAPES[name]
    each = MOST_STEPS // 2 if name == "limits" else min(max(1, given.steps // shape.workers), MOST_STEPS // 2)
    small, large = f"{folder}/{name}.edn", f"{folder}/{name}-twice.edn"
    wanted = write(small, shape, each)
    programs = [given.program, *([given.against] if given.against else [])]
    once, *older = measured(programs, small, wanted, given.rounds)
    both = measured(programs, large, write(large, shape, 2 * each), given.rounds)
    twice = both[0]
    growth = (twice.between / once.between if once.between > 0 else float("nan")), twice.peak / once.peak
    cells = (f"{name:<16}{shape.workers:>8}{wanted.steps:>9,}{a_second(wanted.steps, once.between):>12}{once.run:>8.3f}"
             f"{once.check:>9.3f}{once.peak / 1024:>9.1f}{growth[0]:>14.2f}{growth[1]:>8.2f}")
    targets.count(name, *growth)
    cells += "".join(beside_older(it, once) for it in older)
    if words:
        theirs = peer(words, small, wanted, given.rounds, given.warm_up)
        cells += f"{a_second(wanted.steps, theirs):>19}{theirs / once.between:>20.2f}"
    print(cells, flush=True)
    return large, both


def tell_limits(text, both, steps):
    """What a workload at all limits takes, and how fast it is checked."""
    size = os.path.getsize(text) / MIB
    twice, *older = both
    print(f"limits with {steps:,} steps: {a_second(steps, twice.between)} a second, {twice.run:.3f} s,"
          f" {twice.peak / 1024:,.1f} MiB, which is {twice.peak / 1024 / size:.1f} times the text")
    print(f"check of that text: {size:.1f} MiB in {twice.check:.3f} s, {size / twice.check:.1f} MiB a second,"
          f" of which the target is {LEAST_CHECKED}")
    for it in older:
        print(f"the older build: run {it.run:.3f} s in {it.peak / 1024:,.1f} MiB, check {it.check:.3f} s, {size / it.check:.1f} MiB a second")


def arguments():
    said = argparse.ArgumentParser(description=__doc__, formatter_class=argparse.RawDescriptionHelpFormatter)
    said.add_argument("program")
    said.add_argument("shapes", nargs="*", metavar="SHAPE", help="of those above; all where none is named")
    said.add_argument("--against", metavar="PROGRAM", help="an older build, to be measured in the same turns: its time and memory over ours")
    said.add_argument("--steps", type=int, default=20_000, help="of all workers; at most 5,000 of each, and those of limits are fixed")
    said.add_argument("--rounds", type=int, default=5, help="of which the median counts")
    said.add_argument("--warm-up", type=float, default=5, help="seconds that Clojure gets before")
    given = said.parse_intermixed_args()
    for shape in given.shapes:
        if shape not in SHAPES:
            said.error(f"there is no shape {shape}")
    if given.steps < 1 or given.rounds < 1:
        said.error("--steps and --rounds are at least 1")
    return given


def main():
    given = arguments()
    words = clojure()
    print(f"median of {given.rounds} runs; {os.cpu_count()} processors, load {os.getloadavg()[0]:.1f}")
    print("'a second' is steps over the time of run less that of check, and so is the growth of time; MiB are of run")
    if not words:
        print("clojure is not installed: its figures are skipped")
    head(words, given.against)
    targets = Targets()
    failed = 0
    with tempfile.TemporaryDirectory() as folder:
        for name in given.shapes or SHAPES:
            try:
                text, both = measure(name, given, words, folder, targets)
                if name == "limits":
                    tell_limits(text, both, SHAPES[name].workers * MOST_STEPS)
            except (Refused, Wrong) as why:
                print(f"{name}: {why}", flush=True)
                failed += 1
    targets.tell()
    print(f"load at the end {os.getloadavg()[0]:.1f}")
    return 1 if failed else 0


if __name__ == "__main__":
    sys.exit(main())
