"""Wrong bodies of different functions, tried in one check.

A function is proved against its own contract and those of what it calls, never against a body. So wrong bodies of different functions
don't disturb each other, and one check says of each of these functions whether it is proved. What such a check leaves open, since the
prover waits for a function that it calls, comes into the next one; what it says nothing sure of is for a check of its own.
"""

import re
import shutil
import subprocess
from dataclasses import dataclass
from pathlib import Path

import repository
from repository import TOP

FUNCTION = re.compile(r"( *)(?:pub(?:\(\w+\))? )?(?:const )?fn (\w+)")
IMPL = re.compile(r"impl (?:(\S+) for )?(?:&(?:'\w+ )?(?:mut )?)?(\w+)")


@dataclass(frozen=True)
class Function:
    """A function of a file: the type and the trait that it is of, if any, the first line of what stands above it, as attributes, its
    own first line, and the one behind its last."""

    name: str
    type: str
    trait: str
    head: int
    first: int
    end: int


def without_arguments(line):
    """A line without the arguments of types and traits in it."""
    line, before = line.replace("->", ""), None
    while line != before:
        line, before = re.sub(r"<[^<>]*>", "", line), line
    return line


def end_of(lines, first, indent):
    """The line behind a function's last, in a file that `rt fmt` has laid out."""
    has_body, depth = "{" in lines[first], 0
    for at in range(first, len(lines)):
        line = lines[at]
        has_body = has_body or line == f"{indent}{{" or line.startswith((f"{indent})", f"{indent}>(")) and line.endswith("{")
        # a record in a clause has lines that end so, too
        depth += line.count("{") - line.count("}")
        is_declared = not has_body and depth == 0 and line.endswith(";")
        if line in (f"{indent}}}", f"{indent}{{}}") or at == first and line.endswith("{}") or is_declared:
            return at + 1
    return len(lines)


def functions(text):
    """The functions of a file."""
    lines, found, at, type, trait = text.split("\n"), [], 0, "", ""
    while at < len(lines):
        opened, begun = IMPL.match(without_arguments(lines[at])), FUNCTION.match(lines[at])
        if opened:
            type, trait = opened[2], (opened[1] or "").rpartition("::")[2]
        elif lines[at] == "}":
            type = trait = ""
        if begun:
            indent, name = begun.groups()
            head, end = at, end_of(lines, at, indent)
            while head > 0 and lines[head - 1].startswith((f"{indent}#[", f"{indent}//")):
                head -= 1
            found.append(Function(name, type, trait, head, at, end))
            at = end
        else:
            at += 1
    return found


def parts(text):
    """The lines of a file's functions, and those that stand between them."""
    lines, of_functions, between, at = text.split("\n"), [], [], 0
    for function in functions(text):
        between.append(lines[at : function.first])
        of_functions.append(lines[function.first : function.end])
        at = function.end
    return of_functions, [*between, lines[at:]]


def changed(edit):
    """The functions that a wrong body changes, each by file and place with its new lines; None where it changes anything else."""
    texts, _ = repository.edited(edit)
    found = {}
    for path, (before, after) in texts.items():
        (old, around), (new, other) = parts(before), parts(after)
        if around != other or [it.name for it in functions(before)] != [it.name for it in functions(after)]:
            return None
        found |= {(path, at): new[at] for at in range(len(old)) if old[at] != new[at]}
    return found or None


class Room:
    """A copy of a crate and of the libraries below it, in which the crate is checked with other bodies over what its own check stored."""

    def __init__(self, name, folder):
        below = repository.crates()
        repository.copy_sources(below, folder)
        for it in repository.with_those_below([name], below) - {name}:
            repository.link_tree(TOP / "crates" / it / "out" / "rlib", folder / "crates" / it / "out" / "rlib")
        self.source = TOP / "crates" / name
        self.crate = folder / "crates" / name
        self.texts = {str(it.relative_to(self.source)): it.read_text(encoding="utf-8") for it in (self.source / "src").rglob("*.rt")}
        self.functions = {(path, at): it for path, text in self.texts.items() for at, it in enumerate(functions(text))}
        if not (self.source / "out" / "incremental").is_dir():
            # the gate leaves the library alone, and nothing of what the crate's check stored. In the copy no other check waits for this one
            subprocess.run(["rt", "check", "--jobs", "1"], cwd=self.crate, capture_output=True, check=True)
            repository.link_tree(self.crate / "out" / "incremental", self.source / "out" / "incremental")

    def begin(self):
        """Lets the next check begin with what the crate's own check stored, and with nothing else."""
        shutil.rmtree(self.crate / "out", ignore_errors=True)
        # what is proved is replaced by a check, and never written into; the rest may be
        repository.link_tree(self.source / "out" / "incremental", self.crate / "out" / "incremental", links="*.oantt")

    def check(self, bodies):
        """What is said of these bodies."""
        self.begin()
        touched = {path for path, _ in bodies}
        for path in touched:
            of_functions, between = parts(self.texts[path])
            lines = list(between[0])
            for at, right in enumerate(of_functions):
                lines += bodies.get((path, at), right) + between[at + 1]
            (self.crate / path).write_text("\n".join(lines), encoding="utf-8")
        ran = subprocess.run(["rt", "check", "--jobs", "1"], cwd=self.crate, capture_output=True, text=True)
        for path in touched:
            (self.crate / path).write_text(self.texts[path], encoding="utf-8")
        return ran.stdout

    def key(self, function):
        """What the prover's name of a function says of it: functions with the same one are not distinguished."""
        it = self.functions[function]
        return it.name, it.type or function[0], it.trait

    def named(self, words):
        """The functions that the prover may mean by a name, without the crate's."""
        found = set()
        for (path, at), it in self.functions.items():
            module = [part for part in Path(path).with_suffix("").parts[1:] if part not in ("lib", "main")]
            owner = words[-2] if len(words) > 1 else ""
            # an impl of a type with some of its arguments has these in its name, each behind a plus; so has a trait's
            of_type = owner.split("+")[0] == it.type and not set(owner.split("+")[1:2]) & self.traits(it.type)
            owner = owner.replace("+", "")
            # a trait's method is named by the type, with Ref before it where it is a reference, and the trait
            of_trait = it.trait and owner.startswith((it.type + it.trait, "Ref" + it.type + it.trait))
            if words[-1] == it.name and (of_type or of_trait if it.type else words[:-1] == module):
                found.add((path, at))
        return found

    def traits(self, type):
        """The traits that this type has in the crate."""
        return {it.trait for it in self.functions.values() if it.type == type and it.trait}

    def located(self, path, line):
        """The function on whose lines this one stands, or on those above it that belong to it."""
        return {key for key, it in self.functions.items() if key[0] == path and it.head <= line < it.end}

    def is_in_cycle(self, function, name):
        """Whether a function is said to be in the cycle of calls that another one gives its name."""
        it, lines = self.functions[function], self.texts[function[0]].split("\n")
        return any(f"#[cycle({name})]" in line for line in lines[it.head : it.first])

    def answered(self, folder, goal):
        """The functions of which this is a goal, in this folder of proofs. That of a cycle of calls has the goals of all its functions,
        each behind the function's name."""
        words = folder.split("/")
        for at in (at for at in range(len(goal), 0, -1) if goal[at : at + 1] == "-"):
            found = {it for it in self.named([*words[:-1], goal[:at]]) if self.is_in_cycle(it, words[-1])}
            if found:
                return found
        return self.named(words)


# of one that may wait that is said behind a comma
PROVED = re.compile(r"fn \w+::(\S+): proved(?:, .*)?$")
UNCOMPILED = re.compile(r"(?:\./)?(src/\S+?):(\d+):\d+: error\[")
OPEN_GOAL = re.compile(r"note: (?:\./)?(src/\S+?):(\d+):\d+: it is not proved that ")
OPEN_ANSWER = re.compile(r"(?:\./)?proofs/(\S+)/(?:Answers|Invariants|Proof)\.antt:\d+:\d+: error: `([^`]*)`")
# what a proof file says that names something which a wrong body took away
LACKS = re.compile(r"has no field|is not in scope|has no `|was not admitted")


def judged(room, output):
    """The functions that the prover refuses for what they do themselves, those that it proves, and those that don't compile, for which
    it has judged none. Where it comes to no verdict there are none of the first two."""
    lines, refused, proved = output.split("\n"), set(), set()
    faults = [it for it in map(UNCOMPILED.match, lines) if it]
    if faults or not [it for it in lines if it.startswith("logic=not-proved")]:
        return set(), set(), set().union(*(room.located(it[1], int(it[2]) - 1) for it in faults))
    for line in lines:
        goal, answer, whole = OPEN_GOAL.match(line), OPEN_ANSWER.match(line), PROVED.match(line)
        if goal:
            refused |= room.located(goal[1], int(goal[2]) - 1) or {None}
        elif answer and not LACKS.search(line):
            refused |= room.answered(answer[1], answer[2]) or {None}
        elif whole:
            proved |= room.named(whole[1].split("::"))
    return refused, proved - refused, set()


def try_together(edits, room, say):
    """Those of these wrong bodies of a crate that are refused for sure, where many are tried in one check."""
    bodies = {it: changed(it) for it in edits}
    left, sure, most = [it for it in edits if bodies[it]], set(), len(edits)
    while left:
        batch, taken = [], set()
        for edit in left:
            keys = {room.key(it) for it in bodies[edit]}
            if len(batch) < most and not keys & taken:
                batch.append(edit)
                taken |= keys
        refused, proved, uncompiled = judged(room, room.check({it: lines for edit in batch for it, lines in bodies[edit].items()}))
        if [it for it in refused if it is None or room.key(it) not in taken]:
            # something disturbs other functions, so nothing of this is sure
            refused = proved = set()
        told = [it for it in batch if refused & set(bodies[it])]
        passed = [it for it in batch if it not in told and (proved >= set(bodies[it]) or uncompiled & set(bodies[it]))]
        sure |= set(told)
        left = [it for it in left if it not in told + passed]
        if told or passed:
            most = min(2 * most, len(edits))
        elif len(batch) > 1:
            most = len(batch) // 2
        else:
            left.remove(batch[0])
        say(f"{room.source.name}: {len(batch)} in one check, {len(told)} of them refused, {len(left)} left")
    return sure
