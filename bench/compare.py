#!/usr/bin/env python3
"""Measures a program that reads and prints EDN, next to serde_json, Clojure and jq where they are installed, and next to an
older build of itself where one is named.

run.sh builds the programs and calls this: compare.py PROGRAM FOLDER [--json PROGRAM] [--against PROGRAM] [--refrun REFRUN]
[--quick] [--rounds N] [--seconds S] [--bytes N] [--members N] [SHAPE..]. The texts are made in FOLDER, at half, once and twice
the size.
"""
import argparse
import os
import shutil
import statistics
import subprocess
import sys
import time

from generate import arguments

HERE = os.path.dirname(os.path.abspath(__file__))
MIB = 1024 * 1024

# The C library is to hold what the program frees, as the JVM holds its heap. By itself it returns each block of 32 MiB or more
# back, and the next round pays for fresh pages.
KEEPS = {"GLIBC_TUNABLES": f"glibc.malloc.mmap_max=0:glibc.malloc.trim_threshold={2**33}"}


# A text's rounds are divided among so many turns, in which the programs take part one after another, so that what else the
# machine does disturbs all of them alike.
TURNS = 5


# Linux counts the processor's time of a process in ticks of up to 10 ms. So many milliseconds have enough of them.
TICKS = 20


class Refused(Exception):
    """The program or a peer ended with an error; the text is what it said."""


def output_of(words, text=None, more={}):
    """What the command writes, with the file `text` as its standard input and more in its environment."""
    with open(text or os.devnull, "rb") as given:
        ran = subprocess.run(words, stdin=given, capture_output=True, text=True, env={**os.environ, **more})
    if ran.returncode:
        said = ran.stderr.strip().splitlines()
        raise Refused(said[-1] if said else f"status {ran.returncode}")
    return ran.stdout


def make(folder, shape, given, factor):
    """Writes a shape's texts at this many times the size, and returns the paths of the EDN and the JSON."""
    folder = f"{folder}/times{factor:g}"
    size, members = int(given.bytes * factor), int(given.members * factor)
    words = [f"{HERE}/generate.py", folder, shape, "--bytes", size, "--members", members]
    output_of([sys.executable, *map(str, words)])
    json = f"{folder}/{shape}.json"
    return f"{folder}/{shape}.edn", json if os.path.exists(json) else None


class Measured:
    """What a program said of a text: milliseconds of each round, those of them for which it had a processor, bytes, and the
    most memory, as multiples of the text.
    """

    def __init__(self, program, text):
        self.program, self.path = program, text
        self.text, self.printed = os.path.getsize(text), 0
        self.read, self.print, self.peaks = [], [], [0, 0, 0]
        self.read_ran, self.print_ran = [], []

    def run(self, rounds):
        said = {}
        for line in output_of([self.program, str(rounds)], self.path, KEEPS).splitlines():
            word, number = line.split()
            said.setdefault(word, []).append(int(number))
        self.printed = said["printed"][0]
        for kept, word in ((self.read, "read"), (self.print, "print"), (self.read_ran, "read_ran"), (self.print_ran, "print_ran")):
            kept += [micros / 1000 for micros in said[word]]
        peaks = [said.get(word, [0])[0] * 1024 / self.text for word in ("text_peak", "read_peak", "print_peak")]
        self.peaks = [max(pair) for pair in zip(self.peaks, peaks)]


def run_in_turns(all_of_them, rounds):
    """Makes so many rounds of each."""
    turns = min(TURNS, rounds)
    for turn in range(turns):
        for it in all_of_them:
            it.run(rounds * (turn + 1) // turns - rounds * turn // turns)


def speed(size, best, median):
    """How many bytes in how many milliseconds, in words."""
    return f"{size / MIB / (best / 1000):7.1f} MiB/s ({best:.1f} ms, median {median:.1f})"


def ratio(theirs, ours):
    return f"{theirs / ours:.2f} times as long"


def show(who, text):
    print(f"  {who:<10} {text}", flush=True)


def show_once(once):
    read, print_ = once.read, once.print
    show("ref_edn", f"read  {speed(once.text, min(read), statistics.median(read))}")
    show("ref_edn", f"print {speed(once.printed, min(print_), statistics.median(print_))}")
    text, after_read, after_print = once.peaks
    show("memory", f"at most {text:.1f} times the text before reading,"
         f" {after_read:.1f} after it, {after_print:.1f} after printing")


def show_growth(what, small, large):
    read, print_ = min(large.read) / min(small.read), min(large.print) / min(small.print)
    show("growth", f"{what}: read {read:.2f} times as long, print {print_:.2f} times,"
         f" memory {large.peaks[2]:.1f} times the text")


def over(ours, theirs):
    """The least time over another one's. Each is a pair of lists: by the clock, and as a processor's time, which counts where
    both are long enough.
    """
    clocks, processors = zip(ours, theirs)
    mine, other = map(min, processors)
    if min(mine, other) < TICKS:
        mine, other = map(min, clocks)
    return mine / other


def beside(once, other):
    """How much of another program's time ref_edn takes to read and to print the same data."""
    read = over((once.read, once.read_ran), (other.read, other.read_ran))
    return read, over((once.print, once.print_ran), (other.print, other.print_ran))


def show_beside(who, other, once):
    read, print_ = beside(once, other)
    for what, size, took, ratio_ in (("read ", other.text, other.read, read), ("print", other.printed, other.print, print_)):
        show(who, f"{what} {speed(size, min(took), statistics.median(took))}, ref_edn takes {ratio_:.2f} times its time")
    show(who, f"memory {other.peaks[1]:.1f} times its text after reading, {other.peaks[2]:.1f} after printing")


def measure_clojure(text, once, seconds):
    said = output_of(["clojure", f"{HERE}/clojure.clj", text, str(seconds)])
    for line in said.splitlines():
        what, best, median = line.split()
        size, ours = (once.text, once.read) if what == "read" else (once.printed, once.print)
        best, median = float(best), float(median)
        show("clojure", f"{what:<5} {speed(size, best, median)}, {ratio(best, min(ours))}")


def seconds_of(words, text):
    """The best of three runs of a whole process, in seconds."""
    took = []
    for _ in range(3):
        with open(text, "rb") as given:
            start = time.monotonic()
            status = subprocess.run(words, stdin=given, stdout=subprocess.DEVNULL).returncode
            took.append(time.monotonic() - start)
        if status:
            raise Refused(f"{words[0]}: status {status}")
    return min(took)


def measure_jq(programs, text, json):
    theirs = seconds_of(["jq", "-c", "."], json)
    for name, words in programs.items():
        ours = seconds_of(words, text)
        show("jq", f"read and print as a whole process: {theirs:.2f} s, {name} {ours:.2f} s, {ratio(theirs, ours)}")


def show_row(row, once):
    """A set next to a vector of the same members in the same order."""
    show("row", f"as a set: read {min(once.read) / min(row.read):.2f} times as long as a vector,"
         f" print {min(once.print) / min(row.print):.2f} times")


def measured_programs(shape, given):
    """All that takes part in the turns, by name, and the path of the JSON text, if there is one."""
    text, json = make(given.folder, shape, given, 1)
    found = {"once": Measured(given.program, text)}
    if not given.quick:
        for name, factor in (("half", 0.5), ("twice", 2)):
            found[name] = Measured(given.program, make(given.folder, shape, given, factor)[0])
    if shape == "set":
        found["row"] = Measured(given.program, make(given.folder, "row", given, 1)[0])
    if given.against:
        found["older"] = Measured(given.against, text)
    if given.json and json:
        found["serde_json"] = Measured(given.json, json)
    return found, json


def ratios(shape, found):
    """A row of the table at the end."""
    once = found["once"]
    row = [shape]
    for name in ("serde_json", "older"):
        other = found.get(name)
        row += [f"{it:.2f}" for it in beside(once, other)] if other else ["", ""]
    row += [f"{once.peaks[2]:.1f}", f"{found['older'].peaks[2]:.1f}" if "older" in found else ""]
    return row


def measure(shape, given):
    """Prints all figures of a shape, and returns its row of the table."""
    found, json = measured_programs(shape, given)
    run_in_turns(found.values(), given.rounds)
    once = found["once"]
    print(f"{shape}: {once.text / MIB:.1f} MiB of text, {once.printed / MIB:.1f} MiB printed")
    show_once(once)
    if not given.quick:
        show_growth("from half the size to the whole", found["half"], once)
        show_growth("from the whole to twice the size", once, found["twice"])
    for name in ("older", "serde_json"):
        if name in found:
            show_beside(name, found[name], once)
    if "row" in found:
        show_row(found["row"], once)
    if shutil.which("clojure") and not given.quick:
        measure_clojure(once.path, once, given.seconds)
    if shutil.which("jq") and json and not given.quick:
        programs = {"ref_edn": [given.program]}
        if given.refrun:
            programs["refrun print"] = [given.refrun, "print"]
        measure_jq(programs, once.path, json)
    return ratios(shape, found)


def show_table(rows):
    print("\nref_edn's time over that of serde_json and of the older build, and the most memory over the text:\n")
    print("| Shape | read, over serde_json | print | read, over the older build | print | memory | of the older build |")
    print("|---|---|---|---|---|---|---|")
    for row in rows:
        print("| " + " | ".join(row) + " |")


def main():
    said = argparse.ArgumentParser(description=__doc__)
    said.add_argument("program")
    said.add_argument("folder")
    said.add_argument("--json", help="the program that does the same with serde_json")
    said.add_argument("--against", metavar="PROGRAM", help="an older build of the program, to be measured in the same turns")
    said.add_argument("--refrun", help="the program whose `print` is measured next to jq")
    said.add_argument("--quick", action="store_true", help="no texts of half and of twice the size, no Clojure and no jq")
    said.add_argument("--rounds", type=int, default=15, help=f"of reading and printing, in {TURNS} processes")
    said.add_argument("--seconds", type=float, default=10, help="that Clojure gets for each measurement")
    given = arguments(said)
    print(f"best of {given.rounds} rounds; {os.cpu_count()} processors, load {os.getloadavg()[0]:.1f}")
    print("'times as long' is the other's best time over that of ref_edn, so above 1 ref_edn is faster;")
    print("'times its time' is the least time of ref_edn over the other's, the processor's where it is long, so below 1 ref_edn is faster")
    is_there = {"clojure": shutil.which("clojure"), "jq": shutil.which("jq"), "serde_json": given.json}
    for peer, found in is_there.items():
        if not found and (peer == "serde_json" or not given.quick):
            print(f"{peer} is not installed: its figures are skipped")
    refused, rows = 0, []
    for shape in given.shapes:
        try:
            rows.append(measure(shape, given))
        except Refused as why:
            print(f"{shape}: skipped from here on: {why}")
            refused += 1
    if rows and (given.json or given.against):
        show_table(rows)
    return 1 if refused else 0


if __name__ == "__main__":
    sys.exit(main())
