"""What a file of definitions has: each definition with its comment and its text, and the names that the file takes from others.

For `reference`. A definition (`abbrev`, `unfoldable`, `record`, `data`) is shown whole. Of a law, which is proved, the statement is shown
and not the proof.
"""

import re
from dataclasses import dataclass

# A name, and a word of a clause: a name, with those behind its dots, as in `self.now.dones` or `agents.with_send`.
NAME = r"[^\W\d][\w']*(?:-[^\W\d][\w']*)*"
WORD = re.compile(rf"(?<![\w.'-])({NAME})((?:\.{NAME})*)")

START = re.compile(
    rf"(?P<kind>abbrev|unfoldable)? ?(?P<public>pub )?(?P<form>record |data |mutual\b|module\b)?(?P<name>{NAME}|◌\S*)?(?P<typed>.*:)?"
)  # fmt: skip

# Lines that define nothing.
OTHER = ("use ", "pub use ", "pub mod ", "infix")


@dataclass
class Definition:
    """A definition, or several that name each other. `section` is the line `-- ---- ..` above it."""

    names: list
    docs: list
    text: str
    is_law: bool
    section: str = ""

    @property
    def all_names(self):
        """Its names, and those of the forms that its `data` has."""
        return self.names + (re.findall(rf"^ +({NAME}) : ", self.text, re.MULTILINE) if "data " in self.text else [])


def use_lines(text, public=False):
    """What the `use` lines of a text take from other files: the path of each file, and an alias of it or names, by their names here.
    With `public` only what they pass on."""
    mark = "pub " if public else "(?:ghost |pub )?"
    found = re.findall(rf"^\s*{mark}use ([\w.]+?)(?:\.\{{([^}}]*)\}}| as (\w+))?;?$", text, re.MULTILINE)
    return [(path, dict(named(it) for it in names.split(",") if it.strip()), alias) for path, names, alias in found]


def named(text):
    """A name of a `use` line as it is here, and as it is there."""
    name, _, alias = text.strip().partition(" as ")
    return alias or name, name


def uncommented(lines):
    """The comment that lines begin with, and the others."""
    count = next((at for at, line in enumerate(lines) if not line.startswith("--")), len(lines))
    return [it.removeprefix("--").removeprefix(" ") for it in lines[:count]], lines[count:]


def blocks(lines):
    """The blocks of a file. One ends at a blank line that a line without indent follows."""
    block = []
    for at, line in enumerate(lines):
        following = next((it for it in lines[at + 1 :] if it), "")
        if line or (block and following.startswith(" ")):
            block.append(line)
        elif block:
            yield block
            block = []
    if block:
        yield block


def inner_blocks(lines):
    """The blocks that stand under a first line, without their indent."""
    return blocks([it.removeprefix("  ") for it in lines[1:]])


def definitions_of(block):
    """The definitions of a block."""
    docs, lines = uncommented(block)
    lines = [it for it in lines if not it.startswith(OTHER)]
    start = START.match(lines[0]) if lines else None
    form = (start["form"] or "").strip() if start else ""
    if form == "module":
        return in_module(lines)
    if form == "mutual":
        return together(lines, docs, start["kind"])
    if start and (start["kind"] or form):
        return [Definition([start["name"]], docs, "\n".join(lines), False)]
    if start and start["public"]:
        end = next((at for at, line in enumerate(lines) if at > 0 and not line.startswith(" ")), len(lines))
        return [Definition([start["name"]], docs, "\n".join(lines[:end]), True)]
    return []


def in_module(lines):
    """The definitions of a block `module`, each behind the first line, which has what all of them take."""
    found = [it for block in inner_blocks(lines) for it in definitions_of(block)]
    for it in found:
        it.text = f"{lines[0]}\n{re.sub('^(?=.)', '  ', it.text, flags=re.MULTILINE)}"
    return found


def together(lines, docs, kind):
    """The definitions of a block `mutual`: one text, or the statements of laws."""
    found = [it for block in inner_blocks(lines) for it in definitions_of(block)]
    if kind or not all(it.is_law for it in found):
        starts = [START.match(uncommented(block)[1][0]) for block in inner_blocks(lines)]
        return [Definition([it["name"] for it in starts if it["typed"]], docs, "\n".join(lines), False)]
    if found and not found[0].docs:
        found[0].docs = docs
    return found


def parse(text):
    """The comment at the head of a file, as lines, and its definitions."""
    head, found, section = [], [], ""
    for at, block in enumerate(blocks(text.split("\n"))):
        if at == 0:
            head, block = uncommented(block)
        mark = re.fullmatch(r"-- ---- (.*)", block[0]) if block else None
        section = mark[1] if mark else section
        for it in definitions_of(block[1:] if mark else block):
            it.section = section
            found.append(it)
    return head, found
