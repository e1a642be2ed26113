"""Crates that are proved and built side by side.

The toolchain lets only one command at a time work on a crate and those below it. So each crate is proved in a room of its own: a copy
of the sources with the libraries below it. What a check has proved is stored as it goes, so an interrupted build goes on where it was.
"""

import fcntl
import importlib.machinery
import importlib.util
import os
import re
import shutil
import signal
import subprocess
import sys
import tempfile
import threading
import time
from concurrent.futures import FIRST_COMPLETED, ThreadPoolExecutor, wait
from pathlib import Path

import repository
from repository import TOP

# How many jobs a check takes at most, and how many of them all checks together take beyond one a processor: a job often waits.
MOST_JOBS = 4
FURTHER_LANES = 2
TESTS = " (tests)"
# The part of the free memory that is planned for, and what a further job of a check takes of what its first one does.
PLANNED = 0.85
FURTHER_JOB = 0.35
CHECKED = re.compile(r"so far: (\d+) of (\d+) functions checked")


def toolchain():
    """The toolchain's own module of crates, which says whether a library is built from what stands here."""
    file = Path(os.path.realpath(shutil.which("rt") or sys.exit("there is no command rt: install Rattle's toolchain"))).parent / "rtlib.py"
    loader = importlib.machinery.SourceFileLoader("rtlib", str(file))
    made = importlib.util.module_from_spec(importlib.util.spec_from_loader("rtlib", loader))
    loader.exec_module(made)
    return made


RTLIB = toolchain()


def is_program(name):
    return (TOP / "crates" / name / "src" / "main.rt").is_file()


def crate(name):
    return RTLIB.Crate(str(TOP / "crates" / name), str(TOP), {})


def is_built(name):
    """Whether what stands in the crate's out/ was built from these sources and those below."""
    if not is_program(name):
        return crate(name).is_built()
    program = TOP / "crates" / name / "out" / name
    return program.is_file() and RTLIB.text_of(f"{program}.stamp") == crate(name).stamp() + RTLIB.sum_of(str(program))


def adopt_from_gate(program, below):
    """Takes the libraries and the program that the gate left. It stores no stamp with them; but a program that is newer than its
    libraries and its sources was built from them, and libraries that are newer than their sources were built from these. Returns the
    names of the libraries."""
    made = TOP / "crates" / program / "out" / program
    adopted = []
    for name in repository.lowest_first(repository.with_those_below([program], below) - {program}, below):
        rlib = TOP / "crates" / name / "out" / "rlib" / f"{name}.rlib"
        stamp = rlib.parent / "stamp"
        is_left = rlib.is_dir() and not stamp.exists() and made.is_file() and set(below[name]) <= set(adopted)
        if is_left and newest([rlib]) <= made.stat().st_mtime and newest(repository.sources(name)) < newest([rlib]):
            stamp.write_text(crate(name).stamp(), encoding="utf-8")
        if crate(name).is_built():
            adopted.append(name)
    if not is_built(program) and made.is_file() and set(below[program]) <= set(adopted):
        libraries = [TOP / "crates" / name / "out" / "rlib" / f"{name}.rlib" for name in adopted]
        if newest(libraries) <= made.stat().st_mtime and newest(repository.sources(program)) < made.stat().st_mtime:
            Path(f"{made}.stamp").write_text(crate(program).stamp() + RTLIB.sum_of(str(made)), encoding="utf-8")
    return adopted


def newest(paths):
    return max((it.stat().st_mtime for path in paths for it in (path, *path.rglob("*"))), default=0.0)


def lines_of(name, kind):
    return sum(it.read_bytes().count(b"\n") for it in repository.sources(name) if it.suffix == kind)


def memory_of(name, below):
    """The memory that a check of the crate from nothing is likely to take, in bytes."""
    code = sum(lines_of(it, ".rt") for it in repository.with_those_below([name], below) - {name})
    of_kit = 1_500_000_000 if is_program(name) else 0
    return 1_000_000_000 + 1_000_000 * lines_of(name, ".rt") + 200_000 * lines_of(name, ".antt") + 80_000 * code + of_kit


def free_memory():
    """The free memory in bytes, under the limit of the control group, too."""
    found = [1024 * int(re.search(r"MemAvailable:\s+(\d+)", Path("/proc/meminfo").read_text(encoding="utf-8"))[1])]
    # not each kit says where the limits stand
    for limit, held in getattr(RTLIB, "GROUPS", ()):
        limit, held = RTLIB.number_in(limit, r"(\d+)"), RTLIB.number_in(*held)
        if limit and held is not None:
            found.append(limit - held)
    return min(found)


def rooms():
    """The folder of the rooms: with the repository's history, where no check looks, or among temporary files."""
    ran = subprocess.run(["git", "rev-parse", "--absolute-git-dir"], cwd=TOP, capture_output=True, text=True)
    folder = Path(ran.stdout.strip()) if ran.returncode == 0 else Path(tempfile.gettempdir()) / f"tentrafoky-{os.getuid()}"
    return folder / "rooms"


class Room:
    """A copy of a crate's sources with the libraries below it, in which it is proved over what its earlier checks stored."""

    def __init__(self, name, crates, libraries):
        self.crates, self.libraries = crates, libraries
        self.place, self.own = rooms() / name, TOP / "crates" / name / "out"
        self.crate = self.place / "crates" / name

    def enter(self):
        if self.crate.is_dir():
            # a build that was killed was here, and perhaps its check still is
            held = os.open(self.crate, os.O_RDONLY)
            fcntl.flock(held, fcntl.LOCK_EX)
            self.leave()
            os.close(held)
        shutil.rmtree(self.place, ignore_errors=True)
        self.place.mkdir(parents=True)
        repository.copy_sources(self.crates, self.place)
        for it in self.libraries:
            repository.link_tree(TOP / "crates" / it / "out" / "rlib", self.place / "crates" / it / "out" / "rlib")
        (self.crate / "out").mkdir()
        if (self.own / "incremental").is_dir():
            (self.own / "incremental").rename(self.crate / "out" / "incremental")

    def leave(self):
        """Moves what was made in the room to where it belongs, and removes the room."""
        self.own.mkdir(exist_ok=True)
        for made in (self.crate / "out").iterdir() if (self.crate / "out").is_dir() else ():
            here = self.own / made.name
            if here.is_dir():
                shutil.rmtree(here)
            shutil.move(made, here)
        shutil.rmtree(self.place, ignore_errors=True)


class Line:
    """What is said while crates are proved: a line that is written over on a terminal, and elsewhere one for each crate."""

    def __init__(self, wanted, done):
        self.begun, self.wanted, self.done = time.time(), wanted, done
        self.checked, self.lock, self.is_terminal = {}, threading.RLock(), sys.stderr.isatty()

    def say(self, text):
        with self.lock:
            print(f"\r\033[K{text}" if self.is_terminal else text, file=sys.stderr, flush=True)
            self.show()

    def show(self):
        with self.lock:
            if self.is_terminal:
                under_way = ", ".join(f"{name} {at}".rstrip() for name, at in sorted(self.checked.items()))
                minutes, seconds = divmod(int(time.time() - self.begun), 60)
                text = f"{len(self.done)} of {len(self.wanted)} crates proved, {minutes} min {seconds:02} s; functions: {under_way}"
                print(f"\r\033[K{text[: shutil.get_terminal_size().columns - 1]}", end="", file=sys.stderr, flush=True)

    def clear(self):
        if self.is_terminal:
            print("\r\033[K", end="", file=sys.stderr, flush=True)


def words_for(name, jobs):
    """The toolchain's command that proves a crate and builds it, or proves its tests and runs them."""
    if name.endswith(TESTS):
        return ["rt", "test", "--jobs", str(jobs)]
    return ["rt", "run", "--jobs", str(jobs), "--", "--help"] if is_program(name) else ["rt", "lib", "--jobs", str(jobs)]


class Build:
    """Crates that are to be proved, and the checks that are under way. A crate's tests stand in it as a crate above it."""

    def __init__(self, names, with_times, with_tests):
        self.below, self.with_times = repository.crates(), with_times
        for name in filter(is_program, names):
            adopt_from_gate(name, self.below)
        tests = [it for it in names if with_tests and repository.has_tests(it)]
        self.crates = list(self.below)
        self.below |= {name + TESTS: [*self.below[name], name] for name in tests}
        self.wanted = repository.lowest_first(repository.with_those_below([*names, *(it + TESTS for it in tests)], self.below), self.below)
        self.done = {it for it in self.wanted if not it.endswith(TESTS) and is_built(it)}
        self.line = Line(self.wanted, self.done)
        # how many lines stand in the longest chain of crates that begins with this one
        self.behind = dict.fromkeys(self.wanted, 0)
        for name in reversed(self.wanted):
            self.behind[name] += lines_of(name.removesuffix(TESTS), ".rt") + lines_of(name.removesuffix(TESTS), ".antt")
            for it in self.below[name]:
                self.behind[it] = max(self.behind[it], self.behind[name])
        self.left = sorted((it for it in self.wanted if it not in self.done), key=lambda it: -self.behind[it])
        self.lanes, self.memory = repository.processors() + FURTHER_LANES, PLANNED * free_memory()
        # what is under way: its crate, memory, jobs and beginning by its future; and the toolchain's processes by crate
        self.tasks, self.running, self.failed, self.is_ended = {}, {}, False, False

    def prove(self, name, jobs):
        """Proves and builds a crate. Returns what the toolchain said if it isn't proved, and the seconds of a processor that it took."""
        place = TOP / "crates" / name.removesuffix(TESTS)
        held = os.open(place, os.O_RDONLY)
        fcntl.flock(held, fcntl.LOCK_EX)
        room = Room(place.name, self.crates, repository.with_those_below([place.name], self.below) - {place.name})
        try:
            if self.is_ended or not name.endswith(TESTS) and is_built(name):
                return "", 0.0
            room.enter()
            self.line.checked[name] = ""
            how = {"stdin": subprocess.DEVNULL, "stdout": subprocess.PIPE, "stderr": subprocess.STDOUT, "start_new_session": True}
            ran = self.running[name] = subprocess.Popen(words_for(name, jobs), cwd=room.crate, text=True, errors="replace", **how)
            said = []
            for it in ran.stdout:
                said.append(it)
                checked = CHECKED.match(it)
                if checked:
                    self.line.checked[name] = f"{checked[1]}/{checked[2]}"
                    self.line.show()
            _, status, used = os.wait4(ran.pid, 0)
            ran.returncode = os.waitstatus_to_exitcode(status)
            return "".join(said) if ran.returncode else "", used.ru_utime + used.ru_stime
        finally:
            self.running.pop(name, None)
            self.line.checked.pop(name, None)
            room.leave()
            os.close(held)

    def ready(self):
        return [it for it in self.left if self.done >= set(self.below[it])]

    def begin(self, pool):
        """Begins what there are processors and memory for."""
        ready = self.ready()
        for at, name in enumerate(ready):
            need, room = memory_of(name.removesuffix(TESTS), self.below), self.memory - sum(it[1] for it in self.tasks.values())
            idle = self.lanes - sum(it[2] for it in self.tasks.values())
            if idle > 0 and (not self.tasks or need <= room):
                # the longest chain decides when all is done, so it gets all that there is; the others share what it leaves
                is_longest = all(self.behind[it[0]] <= self.behind[name] for it in self.tasks.values())
                share = idle if is_longest else idle // (len(ready) - at)
                jobs = max(1, min(MOST_JOBS, share, 1 + int((room / need - 1) / FURTHER_JOB)))
                self.left.remove(name)
                self.tasks[pool.submit(self.prove, name, jobs)] = name, need * (1 + FURTHER_JOB * (jobs - 1)), jobs, time.time()

    def end(self, task):
        name, _, jobs, begun = self.tasks.pop(task)
        said, seconds = task.result()
        if said:
            self.failed = True
            self.line.say(f"{said}{name} is not proved")
            return
        self.done.add(name)
        if self.with_times or not self.line.is_terminal:
            times = f", {time.time() - begun:.0f} s with {jobs} jobs, {seconds:.0f} s of a processor" if self.with_times else ""
            self.line.say(f"{name} is proved and built, {len(self.done)} of {len(self.wanted)}{times}")

    def stop(self):
        self.is_ended = True
        for it in list(self.running.values()):
            it.terminate()

    def run(self):
        """Proves all. Returns a status: 0, 1 where a crate isn't proved, 130 where it was interrupted."""

        def interrupted(*_):
            raise KeyboardInterrupt

        for it in (signal.SIGTERM, signal.SIGHUP):
            signal.signal(it, interrupted)
        with ThreadPoolExecutor(self.lanes) as pool:
            try:
                # what stands above a crate that isn't proved is never ready
                while self.tasks or self.ready():
                    self.begin(pool)
                    ended = wait(self.tasks, timeout=1, return_when=FIRST_COMPLETED).done
                    self.line.show()
                    for task in ended:
                        self.end(task)
            except KeyboardInterrupt:
                self.stop()
                self.line.clear()
                print("interrupted; the next build goes on from here", file=sys.stderr)
                return 130
        self.line.clear()
        return 1 if self.failed else 0


def build(names, with_times=False, with_tests=False):
    """Proves and builds these crates and all that they stand on; with_tests, proves and runs the tests of these crates too."""
    return Build(names, with_times, with_tests).run()
