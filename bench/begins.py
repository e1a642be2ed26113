"""Runs the program on worlds of each size, and prints what a transaction took. Called by begins.sh."""

import argparse
import os
import subprocess

SIZES = [1, 64, 4096, 1048576]
MEMBERS = [10, 1000, 100_000]

parser = argparse.ArgumentParser(prog="begins.sh", description="What a transaction of one alter takes, by the number of refs, by what "
                                 "the ref holds, and in memory.")
parser.add_argument("program")
parser.add_argument("sizes", metavar="REFS", nargs="*", type=int, help="how many refs the worlds have; without any: " + ", ".join(map(str, SIZES)))
parser.add_argument("--times", type=int, default=200_000, metavar="N", help="transactions on each world (200,000)")
parser.add_argument("--rounds", type=int, default=5, metavar="N", help="runs for each size, of which the fastest counts (5)")
parser.add_argument("--entries", type=int, default=1_000_000, metavar="N", help="how many entries more memory is looked at for (1,000,000)")
asked = parser.parse_intermixed_args()


def run(*words):
    """Nanoseconds of a transaction, and the most bytes that the process had resident."""
    with subprocess.Popen([asked.program, *map(str, words)], stdout=subprocess.PIPE, text=True) as process:
        told = process.stdout.read()
        _, status, used = os.wait4(process.pid, 0)
        process.returncode = os.waitstatus_to_exitcode(status)
    if process.returncode:
        raise SystemExit(f"begins.sh: {asked.program} {words} ended with status {process.returncode}")
    return int(told), used.ru_maxrss * 1024


def table(head, runs):
    print(f"| {head} | ns a transaction | beside the first |\n|---:|---:|---:|")
    first = None
    for size, words in runs:
        best = min(run(*words)[0] for _ in range(asked.rounds))
        first = first or best
        print(f"| {size:,} | {best:,} | {best / first:.2f} |", flush=True)
    print()


table("refs", [(refs, (refs, asked.times)) for refs in asked.sizes or SIZES])
# Few transactions, since each makes the vector longer by one.
table("integers in the ref", [(members, (1, 200, members)) for members in MEMBERS])
few, many = (run(64, times)[1] for times in (asked.times, asked.times + asked.entries))
print(f"{(many - few) / asked.entries:.0f} bytes an entry of the log, with the receipt in the share")
