#!/usr/bin/env python3
"""Measures `refrun run` on one worker that alters one ref in each step, at N and at 2 N steps.

steps.sh calls this: steps.py REFRUN [--against PROGRAM] [--steps N] [--rounds N] [SHAPE..]. The shapes are

sum       an integer, and `+` of 1 in each step
vector    a vector, which gets one element more by `conj` in each step
map       a map, which gets a new key by `assoc` in each step, the keys in random order from a fixed seed
set       a set, which gets a new element by `conj` in each step, those keys in that order
keywords  a map, which gets a new key by `assoc` in each step, keywords of 8 letters in random order from a fixed seed
"""
import argparse
import os
import random
import string
import subprocess
import sys
import tempfile
import time

# What the ref begins with, and the operations on it.
SHAPES = {
    "sum": ("0", lambda steps: ("+ 1" for _ in range(steps))),
    "vector": ("[]", lambda steps: (f"conj {i}" for i in range(steps))),
    "map": ("{}", lambda steps: (f"assoc {key} {i}" for i, key in enumerate(keys(steps)))),
    "set": ("#{}", lambda steps: (f"conj {key}" for key in keys(steps))),
    "keywords": ("{}", lambda steps: (f"assoc {key} {i}" for i, key in enumerate(keywords(steps)))),
}
# A worker has no more.
MOST_STEPS = 10_000


class Refused(Exception):
    """The program ended with an error, or its report isn't that of a run without refusals."""


def keys(steps):
    return random.Random(1).sample(range(10 * steps), steps)


def keywords(steps):
    drawn, made = random.Random(2), {}
    while len(made) < steps:
        made[":" + "".join(drawn.choices(string.ascii_lowercase, k=8))] = None
    return made


def workload(shape, steps):
    first, operations = SHAPES[shape]
    made = "\n".join(f"[:tx [:alter a {operation}]]" for operation in operations(steps))
    return f"{{:version 1 :refs [[a {first}]] :workers [[{made}]]}}\n"


def run_once(refrun, text, steps):
    """The seconds and the KiB at most of a whole process."""
    with tempfile.TemporaryFile() as report:
        with open(text, "rb") as given:
            start = time.monotonic()
            child = subprocess.Popen([refrun, "run"], stdin=given, stdout=report)
            _, status, used = os.wait4(child.pid, 0)
            took = time.monotonic() - start
        child.returncode = status
        report.seek(0)
        lines = report.read().decode().splitlines()
    if status or lines[1:] != [f"commits {steps}", "audit ok"]:
        raise Refused(f"status {status}, and the report ends {lines[-2:]}")
    return took, used.ru_maxrss


def measured(programs, folder, shape, steps, rounds):
    """The least of the seconds and the most of the KiB of each program, in turns."""
    path = f"{folder}/{shape}-{steps}.edn"
    with open(path, "w", encoding="utf-8", newline="\n") as out:
        out.write(workload(shape, steps))
    turns = [[run_once(refrun, path, steps) for refrun in programs] for _ in range(rounds)]
    return [(min(took for took, _ in runs), max(peak for _, peak in runs)) for runs in zip(*turns)]


def beside(older, ours):
    """What an older build takes over what ours takes."""
    return "".join(f"; the older build {it[0] / ours[0]:.2f} times the time, {it[1] / ours[1]:.2f} the memory" for it in older)


def measure(programs, folder, shape, steps, rounds):
    """Prints the figures of a shape at so many steps and at twice as many."""
    once, *older = measured(programs, folder, shape, steps, rounds)
    print(f"{shape:<8} {steps:>6} steps {once[0]:8.2f} s {once[1] / 1024:9.1f} MiB{beside(older, once)}", flush=True)
    twice, *older = measured(programs, folder, shape, 2 * steps, rounds)
    print(f"{shape:<8} {2 * steps:>6} steps {twice[0]:8.2f} s {twice[1] / 1024:9.1f} MiB:"
          f" {twice[0] / once[0]:.1f} times as long, {twice[1] / once[1]:.1f} times the memory{beside(older, twice)}", flush=True)


def main():
    said = argparse.ArgumentParser(description=__doc__, formatter_class=argparse.RawDescriptionHelpFormatter)
    said.add_argument("refrun")
    said.add_argument("shapes", nargs="*", metavar="SHAPE", help=", ".join(SHAPES))
    said.add_argument("--against", metavar="PROGRAM", help="an older build, to be measured in the same turns")
    said.add_argument("--steps", type=int, default=MOST_STEPS // 2, help="of the smaller run; at most 5,000")
    said.add_argument("--rounds", type=int, default=3, help="of each run: the best time, the highest peak")
    given = said.parse_intermixed_args()
    for shape in given.shapes:
        if shape not in SHAPES:
            said.error(f"there is no shape {shape}")
    if not 1 <= given.steps <= MOST_STEPS // 2:
        said.error("--steps is from 1 to 5,000, since a worker has at most 10,000")
    if given.rounds < 1:
        said.error("--rounds is at least 1")
    print(f"best of {given.rounds} rounds; {os.cpu_count()} processors, load {os.getloadavg()[0]:.1f}")
    refused = 0
    with tempfile.TemporaryDirectory() as folder:
        for shape in given.shapes or SHAPES:
            try:
                measure([given.refrun, *([given.against] if given.against else [])], folder, shape, given.steps, given.rounds)
            except Refused as why:
                print(f"{shape}: skipped from here on: {why}")
                refused += 1
    return 1 if refused else 0


if __name__ == "__main__":
    sys.exit(main())
