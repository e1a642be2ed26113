#!/usr/bin/env python3
"""Tries shared worlds with threads that do everything, for so many minutes.

stress.sh builds the program and calls this: stress.py PROGRAM [--minutes N] [--seed N]. Each run is a process of its own, with
the next seed; one that fails, or that doesn't end within five minutes, ends this with status 1.
"""
import argparse
import collections
import os
import random
import subprocess
import sys
import time

LONGEST = 300


class Failed(Exception):
    """A run failed; the text is what it said."""


def run(program, seed):
    """The words and numbers that a run of a seed prints."""
    try:
        ran = subprocess.run([program, "try", str(seed)], stdin=subprocess.DEVNULL, capture_output=True, text=True,
                             timeout=LONGEST)
    except subprocess.TimeoutExpired:
        raise Failed(f"it didn't end within {LONGEST} seconds")
    if ran.returncode:
        raise Failed(f"status {ran.returncode}\n{ran.stdout}{ran.stderr}".rstrip())
    words = ran.stdout.split()
    return dict(zip(words[::2], map(int, words[1::2])))


def tell(what, done, since):
    print(f"{what} {time.monotonic() - since:.0f} s: {done['runs']:,} runs, {done['commits']:,} commits,"
          f" {done['ended']:,} transactions ended by their body, {done['conflicts']:,} conflicts,"
          f" {done['swaps']:,} swaps, {done['actions']:,} actions", flush=True)


def main():
    said = argparse.ArgumentParser(description=__doc__, formatter_class=argparse.RawDescriptionHelpFormatter)
    said.add_argument("program")
    said.add_argument("--minutes", type=float, default=10)
    said.add_argument("--seed", type=int, help="the first run's, below 2^32; drawn where it isn't given")
    given = said.parse_args()
    seed = random.SystemRandom().randrange(2**31) if given.seed is None else given.seed
    print(f"the first seed is {seed}; {os.cpu_count()} processors, load {os.getloadavg()[0]:.1f}", flush=True)
    start = told = time.monotonic()
    done = collections.Counter()
    while True:
        try:
            ran = run(given.program, seed)
        except Failed as why:
            tell("until it failed,", done, start)
            print(f"the run of seed {seed} failed: {why}")
            return 1
        done.update({word: ran[word] for word in ("commits", "ended", "conflicts", "swaps", "actions")}, runs=1)
        now = time.monotonic()
        if now - start >= given.minutes * 60:
            tell("in", done, start)
            return 0
        if now - told >= 60:
            tell("after", done, start)
            told = now
        seed = (seed + 1) % 2**32


if __name__ == "__main__":
    sys.exit(main())
