"""What printed histories say, as a dump that auditor.py judges: for `tables`, to see that nothing of a run is lost where one is printed."""

import re

from auditor import NIL, read, word

TRANSACTION = re.compile(r"(?P<point>\d+) (?P<worker>\d+) (?P<step>\d+) read (?P<read>\d+)(?P<rest>.*)")
ATOM = re.compile(r"(?P<point>\d+) atom (?P<rest>.*)")
MADE = re.compile(r"(?P<point>\d+) made (?P<kind>ref|atom) (?P<number>\d+) -> (?P<rest>.*)")
VALUE = re.compile(r"(?P<kind>ref|atom) (?P<number>\d+) (?P<rest>.*)")
NAMES = {"refs": "ref", "atoms": "atom"}


def vector(*parts):
    return "vector", parts


def parts_of(text):
    """The values that stand in a text one behind the other."""
    return read(f"[{text}]")[1]


def called(op, number, rest, answer):
    """An operation as an entry has it."""
    if op == word(":reset"):
        assert [answer] == rest
        return op, number, answer
    if op in (word(":set"), word(":ensure")):
        return op, number, *rest, answer
    function, *args = rest
    return op, number, function, vector(*args), answer


def carried(form):
    """A send that an action carries."""
    _, number, function, *args = form[1]
    return vector(number, function, vector(*args))


def sent(form):
    """A send as an entry has it: that of an action which carries some has them at its end."""
    kind, _, number, *rest = form
    if kind == word(":send"):
        function, *args = rest
        return vector(number, function, vector(*args), vector())
    (_, (function, *args)), *carries = rest
    return vector(number, function, vector(*args), vector(*map(carried, carries)))


def dones_and_sends(parts):
    """The operations of a line with their answers, and its sends."""
    dones, sends, left = [], [], list(parts)
    while left:
        form = left.pop(0)[1]
        if form[0] in (word(":send"), word(":send-carry")):
            sends.append(sent(form))
        else:
            assert left.pop(0) == word("->")
            op, _, number, *rest = form
            dones.append(called(op, number, rest, left.pop(0)))
    return dones, sends


def entry_of(line):
    """The point of a line of a history, and its entry."""
    if found := TRANSACTION.fullmatch(line):
        dones, sends = dones_and_sends(parts_of(found["rest"]))
        numbers = [("int", int(found[name])) for name in ("worker", "step", "read")]
        entry = vector(word(":tx"), *numbers, vector(*(vector(*it) for it in dones)), vector(*sends))
    elif found := ATOM.fullmatch(line):
        [[done], []] = dones_and_sends(parts_of(found["rest"]))
        entry = vector(*done)
    else:
        found = MADE.fullmatch(line)
        entry = vector(word(f":made-{found['kind']}"), read(found["rest"]))
    return int(found["point"]), entry


def values_of(lines, kind):
    """The values of refs or of atoms, by number, in lines as `at` prints them, without the last."""
    found = [it for it in map(VALUE.fullmatch, lines) if it["kind"] == kind]
    assert [int(it["number"]) for it in found] == list(range(len(found)))
    return [read(it["rest"]) for it in found]


def changes_in(line):
    """Kind, number and new value of each change of a line of `history --changes`."""
    if found := MADE.fullmatch(line):
        return [(found["kind"], int(found["number"]), read(found["rest"]))]
    left = list(parts_of((TRANSACTION.fullmatch(line) or ATOM.fullmatch(line))["rest"]))
    changes = []
    while left and left[0] in (word("ref"), word("atom")):
        (_, kind), (_, number), _, arrow, new, *left = left
        assert arrow == word("->")
        changes.append((kind, number, new))
    return changes


def dump_of(history, first, changes):
    """The dump that these prints say: a history, the values at the point of the base, and a history of changes, if there is one.

    What a history doesn't have, agents, rules and books, is empty.
    """
    points, entries = zip(*map(entry_of, history[:-1])) if len(history) > 1 else ((), ())
    assert history[-1] == f"entries {len(entries)} chosen {len(entries)}" and list(points) == [points[0] + at for at in range(len(points))]
    assert re.fullmatch(r"at \d+ ok", first[-1])
    base = {key: values_of(first[:-1], kind) for key, kind in NAMES.items()}
    now = {"ref": dict(enumerate(base["refs"])), "atom": dict(enumerate(base["atoms"]))}
    for line in changes[:-1]:
        for kind, number, new in changes_in(line):
            now[kind][number] = new
    point = ("int", points[0] - 1 if points else 0)
    transactions = sum(it[1][0] == word(":tx") for it in entries)
    keys = {
        "dump": ("int", 3), "point": point, "entries": vector(*entries), "agents": vector(), "tally": NIL,
        "commits": ("int", transactions), "added": ("int", 0), "taken": ("int", 0), "folded": vector(*[("int", 0)] * 3),
        "base-refs": vector(*(vector(it, ("int", 0)) for it in base["refs"])), "base-atoms": vector(*base["atoms"]),
        "refs": vector(*(vector(it, NIL) for it in now["ref"].values())),
        "atoms": vector(*(vector(it, NIL) for it in now["atom"].values())),
    }  # fmt: skip
    return "map", frozenset((word(f":{key}"), value) for key, value in keys.items())
