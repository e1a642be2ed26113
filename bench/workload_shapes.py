"""The workloads that workloads.py measures, from a fixed seed, and what the report of each has to say."""
import random
from collections import Counter
from dataclasses import dataclass, field
from typing import Callable

# Limits of a workload.
MOST_STEPS = 10_000
MOST_WORKERS = 64
MOST_OF_A_KIND = 4_096

KINDS = {"ref": "r", "atom": "x", "agent": "g"}


@dataclass
class Shape:
    """Writes a step, given dice, its worker, its number, and the values wanted at the end, to which it adds its own."""
    step: Callable
    workers: int
    refs: int = 0
    atoms: int = 0
    agents: int = 0
    # What each reference begins with, and what stands behind that in the declaration of a ref.
    begin: int = 0
    behind: str = ""
    pool: int = 2
    # A step may be refused where its ref's rule says no. Which ones threads decide.
    has_floor: bool = False

    def count(self, kind):
        return {"ref": self.refs, "atom": self.atoms, "agent": self.agents}[kind]


@dataclass
class Wanted:
    """What the report has to say."""
    shape: Shape
    steps: int = 0
    commits: int = 0
    values: Counter = field(default_factory=Counter)


def write(path, shape, each):
    """Writes a workload in which each worker has so many steps, and answers what is wanted of it."""
    dice = random.Random(1)
    wanted = Wanted(shape, shape.workers * each)
    with open(path, "w", encoding="utf-8", newline="\n") as out:
        out.write(f"{{:version 1 :pool {shape.pool}\n")
        for kind, letter in KINDS.items():
            behind = shape.behind if kind == "ref" else ""
            out.write(f":{kind}s [")
            out.writelines(f"[{letter}{i} {shape.begin}{behind}]" for i in range(shape.count(kind)))
            out.write("]\n")
            wanted.values.update({f"{letter}{i}": shape.begin for i in range(shape.count(kind))})
        out.write(":workers [")
        for worker in range(shape.workers):
            out.write("[")
            for number in range(each):
                step = shape.step(dice, worker, number, wanted.values)
                wanted.commits += step.startswith("[:tx")
                out.write(f"{step}\n")
            out.write("]")
        out.write("]}\n")
    return wanted


# ---- steps


def on_one(form, name):
    """The same step each time, which adds 1 to that reference."""
    def step(dice, worker, number, values):
        values[name] += 1
        return form

    return step


def own_refs(refs, workers):
    """Adds 1 to a ref that no other worker takes."""
    def step(dice, worker, number, values):
        r = f"r{worker + workers * dice.randrange(refs // workers)}"
        values[r] += 1
        return f"[:tx [:alter {r} + 1]]"

    return step


def transfers(refs):
    """Takes some from a ref and adds it to another one."""
    def step(dice, worker, number, values):
        a, b = dice.sample(range(refs), 2)
        n = dice.randrange(1, 21)
        values[f"r{a}"] -= n
        values[f"r{b}"] += n
        return f"[:tx [:alter r{a} - {n}] [:alter r{b} + {n}]]"

    return step


def reads(refs, operation):
    """Reads 16 refs, and one time in eight adds 1 to one."""
    def step(dice, worker, number, values):
        parts = [operation.format(f"r{i}") for i in dice.sample(range(refs), 16)]
        if dice.randrange(8) == 0:
            r = f"r{dice.randrange(refs)}"
            values[r] += 1
            parts.append(f"[:alter {r} + 1]")
        return f"[:tx {' '.join(parts)}]"

    return step


def on_any(form, letter, count):
    """Adds 1 to one of these references."""
    def step(dice, worker, number, values):
        name = f"{letter}{dice.randrange(count)}"
        values[name] += 1
        return form.format(name)

    return step


def full(dice, values):
    """A transaction of 256 operations of 8 arguments."""
    parts = []
    for _ in range(256):
        r = f"r{dice.randrange(MOST_OF_A_KIND)}"
        values[r] += 8
        parts.append(f"[:alter {r} + 1 1 1 1 1 1 1 1]")
    return f"[:tx {' '.join(parts)}]"


MIXED = [
    on_any("[:tx [:alter {} + 1]]", "r", MOST_OF_A_KIND),
    on_any("[:tx [:commute {} + 1]]", "r", MOST_OF_A_KIND),
    on_any("[:swap {} + 1]", "x", MOST_OF_A_KIND),
    on_any("[:send {} + 1]", "g", MOST_OF_A_KIND),
    on_any("[:tx [:send {} + 1]]", "g", MOST_OF_A_KIND),
]


def mixed(dice, worker, number, values):
    """Of each kind, and at another place of each worker a transaction that is as large as one may be."""
    if number == 75 * worker:
        return full(dice, values)
    return dice.choice(MIXED)(dice, worker, number, values)


ALTER = on_one("[:tx [:alter r0 + 1]]", "r0")
COMMUTE = on_one("[:tx [:commute r0 + 1]]", "r0")

SHAPES = {
    **{f"alter-{n}": Shape(ALTER, n, refs=1) for n in (1, 4, 64)},
    **{f"commute-{n}": Shape(COMMUTE, n, refs=1) for n in (1, 4, 64)},
    "tally": Shape(COMMUTE, 4, refs=1, behind=" :tally"),
    "own-64": Shape(own_refs(64, 4), 4, refs=64),
    "own-4096": Shape(own_refs(4_096, 4), 4, refs=4_096),
    "transfers-64": Shape(transfers(64), 4, refs=64),
    "transfers-1000": Shape(transfers(1_000), 4, refs=1_000),
    "transfers-4096": Shape(transfers(4_096), 4, refs=4_096),
    "floor": Shape(transfers(64), 4, refs=64, begin=20, behind=" [>= 0]", has_floor=True),
    "reads": Shape(reads(100, "[:require {} int?]"), 4, refs=100),
    "ensures": Shape(reads(100, "[:ensure {}]"), 4, refs=100),
    "one-atom": Shape(on_one("[:swap x0 + 1]", "x0"), 4, atoms=1),
    "atoms": Shape(on_any("[:swap {} + 1]", "x", 64), 4, atoms=64),
    "agents": Shape(on_any("[:send {} + 1]", "g", 64), 4, agents=64),
    "agents-4096": Shape(on_any("[:send {} + 1]", "g", 4_096), 4, agents=4_096),
    "agents-tx": Shape(on_any("[:tx [:send {} + 1]]", "g", 64), 4, agents=64),
    "limits": Shape(mixed, MOST_WORKERS, MOST_OF_A_KIND, MOST_OF_A_KIND, MOST_OF_A_KIND, pool=16),
}


# ---- reports


class Wrong(Exception):
    """A report isn't what it has to be; the text is why."""


def must(is_so, why):
    if not is_so:
        raise Wrong(why)


def numbers(lines, shape):
    """The values of the lines of references, by name; these lines have to be those that are declared, in order."""
    values = {}
    at = 0
    for kind, letter in KINDS.items():
        for i in range(shape.count(kind)):
            words = lines[at].split() if at < len(lines) else []
            told = words[:2] + words[3:]
            must(told == [kind, f"{letter}{i}"] + ["ready"] * (kind == "agent"), f"line {at} is {' '.join(words)[:80]}")
            values[words[1]] = int(words[2])
            at += 1
    return values, lines[at:]


def check_values(values, wanted):
    """Each value; where rules may refuse steps their sum, and that none is below 0."""
    if wanted.shape.has_floor:
        must(sum(values.values()) == sum(wanted.values.values()), f"the sum is {sum(values.values())}")
        must(min(values.values()) >= 0, f"a value is {min(values.values())}")
    else:
        wrong = [name for name in values if values[name] != wanted.values[name]]
        must(not wrong, f"{len(wrong)} values are wrong, {', '.join(wrong[:3])}")


def check_report(lines, wanted):
    """All of a report of `refrun run`."""
    values, rest = numbers(lines, wanted.shape)
    must(len(rest) >= 2 and rest[-1] == "audit ok", f"it ends {rest[-2:]}")
    *refused, commits, _ = rest
    must(commits == f"commits {wanted.commits - len(refused)}", f"{commits}, and {len(refused)} of {wanted.commits} refused")
    must(wanted.shape.has_floor or not refused, f"refused: {refused[:1]}")
    must(all(it.startswith("refused ") and it.endswith(" invalid") for it in refused), f"refused: {refused[:1]}")
    check_values(values, wanted)


def check_peer(lines, wanted):
    """The report of workloads.clj, which has no lines of refused steps and no audit."""
    values, rest = numbers(lines, wanted.shape)
    must(len(rest) == 1 and rest[0].startswith("commits "), f"it ends {rest[:2]}")
    commits = int(rest[0].split()[1])
    must(commits <= wanted.commits if wanted.shape.has_floor else commits == wanted.commits, f"commits {commits}")
    check_values(values, wanted)
