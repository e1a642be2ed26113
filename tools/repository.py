"""What the commands here, `quick` and `wrong-bodies` share: the crates, and their wrong bodies."""

import fnmatch
import os
import shutil
from pathlib import Path

TOP = Path(__file__).resolve().parent.parent

# What a check reads of a crate.
SOURCES = ("src", "specs", "proofs")

# Where wrong bodies stand: the gate tries those of the first folder, and `wrong-bodies` those of the second.
EDITS = ("must-fail", "wrong-bodies")


def crates(top=TOP):
    """The crates by name, each with the names of those that it stands on."""
    found = {}
    for line in (top / "crates.txt").read_text(encoding="utf-8").splitlines():
        name, _, below = line.partition("#")[0].partition(":")
        if name.strip():
            found[name.split()[0]] = below.split()
    return {name: [it for it in below if it in found] for name, below in found.items()}


def lowest_first(names, below):
    """These crates, each behind those that it stands on."""
    depth = {}

    def depth_of(name):
        if name not in depth:
            depth[name] = 1 + max((depth_of(it) for it in below[name]), default=0)
        return depth[name]

    return sorted(names, key=lambda name: (depth_of(name), name))


def with_those_below(names, below):
    """These crates and all that they stand on."""
    found, left = set(), list(names)
    while left:
        name = left.pop()
        if name not in found:
            found.add(name)
            left += below[name]
    return found


def edits(name, folder, top=TOP):
    """The wrong bodies of a crate in one of its folders."""
    return sorted((top / "crates" / name / folder).glob("*.edit"))


def edited(edit):
    """The files that a wrong body changes, by path, each before and after; and why it can't replace the right one, or None."""
    crate, path, old, texts = edit.parent.parent, None, None, {}
    for line in edit.read_text(encoding="utf-8").split("\n"):
        if line.startswith("file: "):
            path = line[len("file: ") :].strip()
        elif line.startswith("old: "):
            old = line[len("old: ") :]
        elif line.startswith("new:"):
            if not path or not old:
                return {}, "a line 'new:' stands before a line 'file:' or 'old:'"
            if path not in texts:
                if not (crate / path).is_file():
                    return {}, f"there is no file {path}"
                texts[path] = ((crate / path).read_text(encoding="utf-8"),) * 2
            before, text = texts[path]
            if text.count(old) != 1:
                return {}, f"its old text stands {text.count(old)} times in {path}, and not once"
            texts[path] = before, text.replace(old, line[len("new:") :].removeprefix(" "))
            old = None
    return texts, None if texts else "it has no lines 'file:', 'old:' and 'new:'"


def misfit(edit):
    """Why a wrong body can't replace the right one, or None."""
    return edited(edit)[1]


def sources(name, top=TOP):
    """The files that a check reads of a crate."""
    return sorted(it for part in SOURCES for it in (top / "crates" / name / part).rglob("*") if it.is_file())


def is_library(name, top=TOP):
    """Whether a crate is a library for programs: no program, and not for the tests alone."""
    return not name.startswith("tests_") and (top / "crates" / name / "src" / "lib.rt").is_file()


def has_tests(name, top=TOP):
    return any(b"#[test]" in it.read_bytes() for it in (top / "crates" / name / "src").rglob("*.rt"))


def copy_sources(names, to, top=TOP):
    """Copies what a check reads of these crates, but not what earlier checks made."""
    for file in ("crates.txt", "HANDLES"):
        shutil.copyfile(top / file, to / file)
    (to / ".git").mkdir()
    for name in names:
        (to / "crates" / name).mkdir(parents=True)
        for part in SOURCES:
            if (top / "crates" / name / part).is_dir():
                shutil.copytree(top / "crates" / name / part, to / "crates" / name / part)


def link_tree(source, to, links="*"):
    """Copies a folder; files of such names become second names of the same files, where that can be."""

    def link(a, b):
        try:
            if not fnmatch.fnmatch(os.path.basename(a), links):
                raise OSError
            os.link(a, b)
        except OSError:
            shutil.copy2(a, b)

    shutil.copytree(source, to, copy_function=link)


def processors():
    return len(os.sched_getaffinity(0))
