#!/usr/bin/env python3
"""Lets the shop of crates/service stay open for some minutes, and prints its memory and how long a fold holds the lock.

steady.sh builds the program and calls this: steady.py PROGRAM [--minutes N] [--bites-only]. The status is 1 if the program fails, or if
its memory isn't flat: from the end of the second minute to the end it may grow by less than a byte a commit, and by 16 MB at most.
"""
import argparse
import os
import statistics
import subprocess
import sys
import threading
import time

BITES = (100, 1_000, 10_000, 100_000)
REFS = (8, 4_096)
MOST_GROWTH = 16_000_000


class Failed(Exception):
    """The program failed; the text is what it said."""


def holds(program, refs, bite):
    """The nanoseconds for which the lock was held, for each fold of so many entries."""
    ran = subprocess.run([program, "bites", str(refs), str(bite)], stdin=subprocess.DEVNULL, capture_output=True, text=True)
    if ran.returncode:
        raise Failed(f"status {ran.returncode}: {ran.stderr.strip()}")
    return [int(line.split()[1]) for line in ran.stdout.splitlines()]


def print_bites(program):
    print("| entries in a bite | " + " | ".join(f"{refs:,} refs, ms: median, longest" for refs in REFS) + " |")
    print("|---:|" + "---:|" * len(REFS))
    for bite in BITES:
        cells = []
        for refs in REFS:
            found = holds(program, refs, bite)
            cells.append(f"{statistics.median(found) / 1e6:.3f}, {max(found) / 1e6:.3f}")
        print(f"| {bite:,} | " + " | ".join(cells) + " |", flush=True)


def resident(pid):
    """The bytes that a process has resident, if it is still there."""
    try:
        with open(f"/proc/{pid}/status", encoding="ascii") as status:
            found = [line.split()[1] for line in status if line.startswith("VmRSS:")]
    except OSError:
        return None
    return int(found[0]) * 1024 if found else None


class Reader(threading.Thread):
    """Reads what the program says, from its own thread: the commits so far, and the last lines."""

    def __init__(self, stream):
        super().__init__(daemon=True)
        self.stream, self.seconds, self.commits, self.said = stream, 0, 0, []
        self.start()

    def run(self):
        for line in self.stream:
            words = line.split()
            if words[:1] == ["at"]:
                self.seconds, self.commits = int(words[1]), int(words[2])
            else:
                self.said.append(line.strip())


def row(minute, memory, commits, rate):
    print(f"| {minute:g} | {memory / 1e6:.1f} | {commits:,} | {rate:,.0f} | {os.getloadavg()[0]:.1f} |", flush=True)


def stay_open(program, minutes):
    """The program for so many minutes: whether its memory is flat."""
    print("| minute | MB | commits | commits a second | load |")
    print("|---:|---:|---:|---:|---:|")
    began = time.monotonic()
    with subprocess.Popen([program, "run", str(round(minutes * 60))], stdin=subprocess.DEVNULL, stdout=subprocess.PIPE,
                          text=True) as ran:
        reader = Reader(ran.stdout)
        rows, last = [], (0.0, 0)
        memory = 0
        while ran.poll() is None:
            time.sleep(0.2)
            memory = resident(ran.pid) or memory
            now = time.monotonic() - began
            # A row for each minute, and one at the end of what is no whole minute.
            if now >= (len(rows) + 1) * 60:
                commits = reader.commits
                rows.append((memory, commits))
                row(len(rows), memory, commits, (commits - last[1]) / (now - last[0]))
                last = (now, commits)
        reader.join()
        if ran.returncode:
            raise Failed(f"status {ran.returncode}")
    said = dict(pair for line in reader.said for pair in pairs(line))
    if not any(line.startswith("finish ok") for line in reader.said):
        raise Failed("it didn't say that finish was Ok")
    rows.append((memory, said["commits"]))
    print(f"finish was Ok, after {time.monotonic() - began:.0f} s: {said['sales']:,} sales, {said['folds']:,} folds, {said['commits']:,} commits")
    for one, other in (("taken", "added"), ("damaged", "errors")):
        if said[one] != said[other]:
            raise Failed(f"{one} {said[one]}, but {other} {said[other]}")
    print(f"the lock was held for {said['holds']:,} bites: half of them {said['median_us']:,} microseconds at most, 99 in 100"
          f" {said['p99_us']:,}, the longest {said['longest_us']:,}")
    return is_flat(rows)


def pairs(line):
    """The words of a line with the numbers behind them."""
    words = line.split()
    return [(word, int(number)) for word, number in zip(words, words[1:]) if number.isdigit()]


def is_flat(rows):
    """Whether memory is flat from the end of the second minute on, by the rows of minutes and the one of the end."""
    if len(rows) < 4:
        print("too short to say whether its memory is flat")
        return True
    (memory, commits), (last, all_commits) = rows[1], rows[-1]
    grown, made = last - memory, all_commits - commits
    flat = grown < made and grown <= MOST_GROWTH
    print(f"memory is {'flat' if flat else 'NOT flat'}: since the second minute it grew by {grown / 1e6:.1f} MB in {made:,} commits,"
          f" {grown / made:.3f} bytes a commit")
    return flat


def main():
    said = argparse.ArgumentParser(description=__doc__, formatter_class=argparse.RawDescriptionHelpFormatter)
    said.add_argument("program")
    said.add_argument("--minutes", type=float, default=10)
    said.add_argument("--bites-only", action="store_true")
    given = said.parse_args()
    print(f"{os.cpu_count()} processors, load {os.getloadavg()[0]:.1f}", flush=True)
    try:
        print_bites(given.program)
        return 0 if given.bites_only or stay_open(given.program, given.minutes) else 1
    except Failed as why:
        print(f"the program failed: {why}")
        return 1


if __name__ == "__main__":
    sys.exit(main())
