#!/usr/bin/env python3
"""Measures `audit` of a dump of 640,000 entries, and what the other commands that read one take next to it.

shown.sh calls this: shown.py REFRUN [--rounds N].
"""
import argparse
import os
import subprocess
import sys
import tempfile
import time

WORKERS, STEPS = 64, 10_000
ENTRIES = WORKERS * STEPS
# The commands, and how the last line of each begins.
COMMANDS = {
    "audit": "audit ok",
    "history": f"entries {ENTRIES} chosen {ENTRIES}",
    "history --changes": f"entries {ENTRIES} chosen {ENTRIES}",
    "history --from 639000": f"entries {ENTRIES} chosen 1001",
    f"at {ENTRIES}": f"at {ENTRIES} ok",
    "draw": "</html>",
}


def workload():
    worker = "[" + "[:swap x inc]" * STEPS + "]"
    return ("{:version 1 :atoms [[x 0]] :workers [" + worker * WORKERS + "]}").encode()


def run_once(refrun, command, dump, last):
    """The seconds and the MiB at most of a whole process."""
    with tempfile.TemporaryFile() as shown, open(dump, "rb") as given:
        start = time.monotonic()
        child = subprocess.Popen([refrun, *command.split()], stdin=given, stdout=shown)
        _, status, used = os.wait4(child.pid, 0)
        took = time.monotonic() - start
        child.returncode = status
        size = shown.seek(0, os.SEEK_END)
        shown.seek(max(0, size - 100))
        said = shown.read().decode(errors="replace").splitlines()[-1]
    if status or said != last:
        sys.exit(f"{command}: status {status}, and its last line is {said}")
    return took, used.ru_maxrss / 1024


def main():
    said = argparse.ArgumentParser(description=__doc__, formatter_class=argparse.RawDescriptionHelpFormatter)
    said.add_argument("refrun")
    said.add_argument("--rounds", type=int, default=3)
    wanted = said.parse_args()
    with tempfile.TemporaryDirectory() as folder:
        dump = f"{folder}/dump"
        with open(dump, "wb") as out:
            subprocess.run([wanted.refrun, "run", "--dump"], input=workload(), stdout=out, check=True)
        first = None
        for command, last in COMMANDS.items():
            runs = [run_once(wanted.refrun, command, dump, last) for _ in range(wanted.rounds)]
            took, peak = min(it[0] for it in runs), max(it[1] for it in runs)
            first = first or (took, peak)
            print(f"{command:<22} {took:6.2f} s {peak:7.1f} MiB, {took / first[0]:.2f} and {peak / first[1]:.2f} of audit's", flush=True)


if __name__ == "__main__":
    main()
