#!/usr/bin/env python3
"""Measures calls on a shared world from several threads, next to Clojure and the limit program.

threads.sh builds the programs and calls this: threads.py PROGRAM [--limit LIMIT] [--seconds S] [--warm-up S] [--acts N]
[--threads N,N..] [--instructions | --compare] [SHAPE..]. The shapes are

one-ref         transactions that add 1 to one ref by alter
tally           transactions that add 1 to one ref by commute
own-refs        transactions that add 1 by alter to one of 64 refs, where no two threads take the same
own-4096        the same on 4,096 refs
transfers-64    transactions that take 1 from one of 64 refs and add it to another one, by alter
transfers-1000, transfers-4096  the same between 1,000 and 4,096 refs
reads           transactions that read 100 refs and add 1 to one of them by alter
one-atom        swaps of one atom
own-atoms       swaps of one of 64 atoms, where no two threads take the same
agents          sends to 64 agents, whose actions a pool of two threads runs
chains          the same, where each action sends on to the next agent: two actions for each send
"""
import argparse
import itertools
import os
import re
import shutil
import statistics
import sys

from compare import KEEPS, Refused, output_of

HERE = os.path.dirname(os.path.abspath(__file__))
SHAPES = ["one-ref", "tally", "own-refs", "own-4096", "transfers-64", "transfers-1000", "transfers-4096", "reads", "one-atom",
          "own-atoms", "agents", "chains"]
# How many times as slow as the limit program a shape may be: one of up to 64 refs, and one of 4,096. For the others there is no target.
MOST_OVER_LIMIT = {
    **dict.fromkeys(["one-ref", "tally", "own-refs", "transfers-64", "one-atom", "own-atoms", "agents", "chains"], 4),
    **dict.fromkeys(["own-4096", "transfers-4096"], 3),
}
# Threads of a pool wait for each other, so their instructions differ from run to run.
NOT_COUNTED = ["agents", "chains"]
# --compare draws the acts of each shape from these.
SEEDS = [1, 2, 3]


class Measured:
    """What a program said of its rounds: the nanoseconds of an act, by the median round, and the tries of a commit."""

    def __init__(self, words, shape, threads, more={}):
        rounds = []
        for line in output_of([*words[:1], *map(str, words[1:])], more=more).splitlines():
            word, *numbers = line.split()
            if word == "round":
                rounds.append([int(number) for number in numbers])
        if not rounds:
            raise Refused(f"{words[0]} made no round")
        wall = statistics.median(nanos / acts for nanos, acts, _ in rounds)
        self.a_second = 1e9 / wall
        self.nanos = threads * wall
        self.tries = sum(tries for _, _, tries in rounds) / sum(acts for _, acts, _ in rounds)
        self.has_tries = shape not in ("one-atom", "own-atoms", "agents", "chains")

    def tried(self):
        return f"{self.tries:.2f}" if self.has_tries else ""


def head():
    print(f"{'':<24}{'here':>30}   {'Clojure':>31}   {'limit program':>22}")
    print(f"{'shape':<16}{'threads':>8}{'a second':>13}{'ns each':>11}{'tries':>6}"
          f"   {'ns each':>11}{'tries':>6}{'its over ours':>14}   {'ns each':>8}{'ours over its':>14}", flush=True)


def row(shape, threads, ours, clojure, limit):
    cells = f"{shape:<16}{threads:>8}{ours.a_second:>13,.0f}{ours.nanos:>11,.0f}{ours.tried():>6}"
    if clojure:
        cells += f"   {clojure.nanos:>11,.0f}{clojure.tried():>6}{clojure.nanos / ours.nanos:>14.2f}"
    elif limit:
        cells += " " * 34
    if limit:
        cells += f"   {limit.nanos:>8,.0f}{ours.nanos / limit.nanos:>14.2f}"
    print(cells, flush=True)


class Target:
    """How many rows meet a bound."""

    def __init__(self, words):
        self.words, self.met, self.all = words, 0, 0

    def count(self, is_met):
        self.met += is_met
        self.all += 1

    def tell(self):
        if self.all:
            print(f"{self.words}: {self.met} of {self.all} rows of up to 64 refs and of 4,096")


def measure(shape, threads, given, faster, no_slower):
    """Prints a row, and counts it with the targets."""
    acts, millis, warm_up = max(1, given.acts // threads), round(given.seconds * 1000), round(given.warm_up * 1000)
    numbers = [shape, threads, acts, millis]
    ours = Measured([given.program, "measure", *numbers], shape, threads, KEEPS)
    clojure = limit = None
    if shutil.which("clojure"):
        clojure = Measured(["clojure", f"{HERE}/threads/threads.clj", *numbers, warm_up], shape, threads)
    if given.limit:
        limit = Measured([given.limit, "measure", *numbers], shape, threads, KEEPS)
    row(shape, threads, ours, clojure, limit)
    if clojure and shape in MOST_OVER_LIMIT:
        faster.count(clojure.nanos >= 2 * ours.nanos)
    if limit and shape in MOST_OVER_LIMIT:
        no_slower.count(ours.nanos <= MOST_OVER_LIMIT[shape] * limit.nanos)


def measure_all(given):
    """The table of times. Returns how many rows were skipped."""
    print(f"median rounds of {given.acts:,} acts; {os.cpu_count()} processors, load {os.getloadavg()[0]:.1f}")
    print("'ns each' is the wall time times the threads over the acts, and 'tries' are of a commit")
    for peer, is_there in (("clojure", shutil.which("clojure")), ("rustc", given.limit)):
        if not is_there:
            print(f"{peer} is not installed: its figures are skipped")
    head()
    faster = Target("at least 2 times Clojure's speed")
    no_slower = Target("at most 4 times the limit program's time, with 4,096 refs 3 times")
    refused = 0
    for shape in given.shapes:
        for threads in given.threads:
            try:
                measure(shape, threads, given, faster, no_slower)
            except Refused as why:
                print(f"{shape} with {threads} threads: skipped: {why}")
                refused += 1
    faster.tell()
    no_slower.tell()
    print(f"load at the end {os.getloadavg()[0]:.1f}")
    return refused


def instructions_of(program, shape, acts):
    """How many instructions the process takes that makes one round of so many acts by one thread."""
    words = ["valgrind", "--tool=callgrind", "--callgrind-out-file=/dev/null", "--log-fd=1"]
    said = output_of([*words, program, "measure", shape, "1", str(acts), "0"], more=KEEPS)
    return int(re.search(r"Collected : (\d+)", said)[1])


def instructions_each(program, shape, acts):
    """Instructions of an act: by how many they rise from a round of half as many acts to a whole one."""
    half = max(1, acts // 2)
    return (instructions_of(program, shape, 2 * half) - instructions_of(program, shape, half)) / half


def count_all(given):
    """The table of instructions. Returns how many rows were skipped."""
    print(f"instructions of an act by one thread, by rounds of {given.acts // 2:,} and of {given.acts:,} acts")
    print(f"{'shape':<16}{'here':>10}{'limit program':>16}{'ours over its':>16}", flush=True)
    refused = 0
    for shape in given.shapes:
        if shape in NOT_COUNTED:
            continue
        try:
            ours, limit = (instructions_each(program, shape, given.acts) for program in (given.program, given.limit))
            print(f"{shape:<16}{ours:>10,.0f}{limit:>16,.0f}{ours / limit:>16.2f}", flush=True)
        except Refused as why:
            print(f"{shape}: skipped: {why}")
            refused += 1
    return refused


def difference(ours, theirs):
    """The first line in which two texts differ, in words, if there is one."""
    for number, (here, there) in enumerate(itertools.zip_longest(ours.splitlines(), theirs.splitlines()), 1):
        if here != there:
            return f"line {number} is {here!r} here, and {there!r} in the limit program"
    return None


def compare_all(given):
    """Compares what is in the worlds of both programs after the same acts. Returns how many rounds differ or fail."""
    failed = rounds = 0
    for shape, threads, seed in itertools.product(given.shapes, given.threads, SEEDS):
        numbers = [shape, threads, max(1, given.acts // threads), seed]
        rounds += 1
        try:
            ours, theirs = (output_of([program, "totals", *map(str, numbers)]) for program in (given.program, given.limit))
            why = difference(ours, theirs)
        except Refused as refused:
            why = refused
        if why:
            print(f"{shape} with {threads} threads and seed {seed}: {why}", flush=True)
            failed += 1
    print(f"{rounds - failed} of {rounds} rounds left the same in both programs")
    return failed


def arguments():
    said = argparse.ArgumentParser(description=__doc__, formatter_class=argparse.RawDescriptionHelpFormatter)
    said.add_argument("program")
    said.add_argument("shapes", nargs="*", metavar="SHAPE", help="of those above; all where none is named")
    said.add_argument("--limit", help="the limit program")
    said.add_argument("--seconds", type=float, default=2, help="that each measurement takes")
    said.add_argument("--warm-up", type=float, default=10, help="seconds that Clojure gets before, and 50 rounds at least")
    said.add_argument("--acts", type=int, default=20_000, help="that all threads make in one round")
    said.add_argument("--threads", default="1,2,4", help="how many, with commas between; at most 64")
    mode = said.add_mutually_exclusive_group()
    mode.add_argument("--instructions", action="store_true", help="count instructions instead; needs valgrind and the limit program")
    mode.add_argument("--compare", action="store_true",
                      help="measure nothing, but compare what both programs leave in the world after the same acts")
    given = said.parse_intermixed_args()
    given.shapes = given.shapes or SHAPES
    for shape in given.shapes:
        if shape not in SHAPES:
            said.error(f"there is no shape {shape}")
    try:
        given.threads = [int(threads) for threads in given.threads.split(",")]
    except ValueError:
        said.error("--threads is numbers with commas between")
    if not all(1 <= threads <= 64 for threads in given.threads):
        said.error("--threads is from 1 to 64")
    if (given.instructions or given.compare) and not given.limit:
        said.error("the limit program isn't there: rustc builds it")
    if given.instructions and not shutil.which("valgrind"):
        said.error("valgrind is not installed")
    return given


def main():
    given = arguments()
    work = count_all if given.instructions else compare_all if given.compare else measure_all
    return 1 if work(given) else 0


if __name__ == "__main__":
    sys.exit(main())
