"""The texts of `hostile`, as pieces, and what is wanted of each."""

import math
import os
import re
import subprocess
import tempfile
from dataclasses import dataclass
from functools import partial
from pathlib import Path
from typing import Callable

HERE = Path(__file__).resolve().parent
# The longest text, the references of a kind, the workers, and the steps of each.
FULL, REFERENCES, WORKERS, STEPS = 16 * 1024 * 1024, 4_096, 64, 10_000
EVERY = ("run", "check", "audit", "play", "print")
# The most events of a list.
EVENTS = 640_000
# No transaction is to give up.
RUN = "run --tries 1000000"


class Length:
    """How long the texts are to be; where they are shorter than they may be, counts are smaller too."""

    size = FULL


def scaled(count):
    return max(2, count * Length.size // FULL)


def fitting(part, around=0):
    """How many such parts a text has room for, next to what stands around them."""
    return (Length.size - around) // len(part)


# ---- pieces: strings of some 64 KiB, functions that give pieces, and lists of these. No text is ever here as a whole, since the
# memory of whoever starts a process counts for it.


def repeat(part, count):
    """So many of the same part."""
    return partial(_repeat, part, count)


def _repeat(part, count):
    block = max(1, 65_536 // len(part))
    for _ in range(count // block):
        yield part * block
    yield part * (count % block)


def each(form, count, between=""):
    """So many parts, made by number."""
    return partial(_each, form, count, between)


def _each(form, count, between):
    step = max(1, 65_536 // len(form(0)))
    for start in range(0, count, step):
        block = between.join(form(i) for i in range(start, min(count, start + step)))
        yield (between if start else "") + block


def joined(part, count):
    """So many of the same part with a space between."""
    return [part, repeat(" " + part, count - 1)]


def listed(part, count):
    """A vector of so many of the same."""
    return ["[", repeat(part, count), "]"]


def blocks(piece):
    """The bytes of pieces, block by block."""
    if isinstance(piece, str):
        yield piece.encode(errors="surrogateescape")
    else:
        for part in piece() if callable(piece) else piece:
            yield from blocks(part)


# ---- what is wanted


@dataclass
class Wanted:
    """The status, the pieces on standard output, or a function that says what is wrong with it, and the line of the fault."""

    status: int
    pieces: list
    line: str = ""
    complaint: Callable = None


@dataclass
class Case:
    """A text, what is wanted of it by command, and how often its memory may have its length."""

    name: str
    pieces: list
    wanted: dict
    times: int = 32
    is_known: bool = False
    # Whether the text may be longer than an input may be without `--large`.
    is_large: bool = False


def refused(words):
    return Wanted(3, [], f"refrun: {words}\n")


def printed(*pieces):
    return Wanted(0, [*pieces])


def everywhere(words):
    return {command: refused(words) for command in EVERY}


def no_workload(words):
    return {command: refused(words) for command in ("run", "check")}


def element(*pieces):
    """Of an element that is neither a workload nor a dump."""
    return {"print": printed(*pieces, "\n"), "check": refused("NotWorkload"), "audit": refused("NotDump")}


def verdict(words):
    return {"audit": Wanted(0 if words == "ok" else 5, [f"audit {words}\n"])}


# ---- texts at fault, and texts of one value


def nesting():
    for opening, place in (("[", 64), ("(", 64), ("{", 64), ("#{", 128), ("#_", 128)):
        yield Case(f"only {opening}", [repeat(opening, fitting(opening))], everywhere(f"TooDeep at {place}"))
    n = fitting("0 ", 65)
    yield Case("too deep at the end", ["[", repeat("0 ", n), "[" * 64], everywhere(f"TooDeep at {2 * n + 64}"))
    vectors, sets, maps = "[" * 63 + "]" * 63, "#{" * 63 + "}" * 63, "{0 " * 62 + "{}" + "}" * 62
    for name, deep in (("vectors", vectors), ("sets", sets), ("maps", maps)):
        n = fitting(deep, 2)
        yield Case(f"64 levels of {name}", listed(deep, n), element("[", joined(deep, n), "]"), 64)


def strings():
    rows = (("one string", "a", "a"), ("a string of escapes", "\\n", "\\n"), ("a string of codes", "\\u0041", "A"),
            ("a string of newlines", "\n", "\\n"), ("a string of quotes", '\\"', '\\"'))
    for name, part, shown in rows:
        n = fitting(part, 2)
        yield Case(name, ['"', repeat(part, n), '"'], element('"', repeat(shown, n), '"'))
    n = (Length.size - 2) // 2
    yield Case("a string past ASCII", ['"', repeat("é", n), '"'], element('"', repeat("é", n), '"'))
    n = Length.size - 4
    front = ['"', repeat("a", n)]
    yield Case("a string without end", front, everywhere(f"EndsEarly at {n + 1}"))
    yield Case("a wrong escape at the end", [*front, '\\q"'], everywhere(f"BadEscape at {n + 1}"))
    yield Case("no UTF-8 at the end", [*front, "\udcff"], everywhere(f"NotUtf8 at {n + 1}"))


def names():
    n = Length.size - 1
    long = repeat("a", n)
    yield Case("one symbol", [long], element(long))
    yield Case("one keyword", [":", long], element(":", long))
    yield Case("a symbol with nothing behind its slash", [long, "/"], everywhere("BadName at 0"))
    yield Case("a symbol of slashes", [repeat("a/", n // 2)], everywhere("BadName at 0"))
    yield Case("only colons", [repeat(":", n)], everywhere("BadName at 0"))
    yield Case("only letters past ASCII", [repeat("é", n // 2)], everywhere("BadByte at 0"))


def integers():
    n = Length.size - 2
    ones = repeat("1", n)
    yield Case("one long integer", [ones], everywhere("TooLarge at 0"))
    yield Case("one long negative integer", ["-", repeat("9", n)], everywhere("TooLarge at 0"))
    yield Case("only zeros", [repeat("0", n)], everywhere("BadNumber at 0"))
    yield Case("a long float", [ones, ".5"], everywhere("LeftOut at 0"))
    yield Case("a long integer with a letter behind", [ones, "y"], everywhere("BadNumber at 0"))
    least = "-9223372036854775808"
    count = fitting(least + " ", 2)
    yield Case("the least integer, often", listed(least + " ", count), element("[", joined(least, count), "]"))


def vectors():
    rows = (("0 ", "0"), ("nil ", "nil"), (":a ", ":a"), ("a ", "a"), ('""', '""'), ("[]", "[]"), ("()", "[]"), ("{}", "{}"),
            ("#{}", "#{}"), ("[0]", "[0]"), ("{0 0}", "{0 0}"), ('["a"]', '["a"]'))
    for part, shown in rows:
        n = fitting(part, 2)
        yield Case(f"a vector of {part.strip()}", listed(part, n), element("[", joined(shown, n), "]"))
    n = fitting("0 ")
    trailing = refused("Trailing at 2")
    yield Case("many elements", [repeat("0 ", n)], {"print": printed(repeat("0\n", n)), "check": trailing, "audit": trailing})


def number(i):
    """A number of seven digits."""
    return 1_000_000 + i


def mixed(count):
    """The first so many of these, in no order."""
    prime = next(it for it in (7_919, 7_927, 7_933) if count % it)
    return lambda i: number(i * prime % count)


def entries(key, count, between=" "):
    """So many entries of a map."""
    return each(lambda i: f"{key(i)} 0", count, between)


def maps():
    n = fitting("1000000 0 ", 2)
    shown = element("{", entries(number, n, ", "), "}")
    for name, key in (("one map", number), ("one map, in no order", mixed(n)), ("one map, backwards", lambda i: number(n - 1 - i))):
        yield Case(name, ["{", entries(key, n), "}"], shown)
    yield Case("a map with a key too many", ["{", entries(number, n - 1), " 7}"], everywhere(f"OddMap at {10 * (n - 1) + 2}"))
    yield Case("a key twice", ["{", entries(number, n - 1), " 1000000 0}"], everywhere(f"Duplicate at {10 * (n - 1) + 1}"))
    # The front of a key, what stands behind its number, and the times of the memory.
    front = "0 " * 4_000
    rows = (("a set", "", "", 32), ("a set of keywords", ":k", "", 32), ("a set of strings", '"', '"', 32),
            ("a set of vectors", "[", "]", 64), ("a set of strings that differ at their ends", '"' + front, '"', 32),
            ("a set of vectors that differ at their ends", "[" + front, "]", 32))
    for name, before, behind, times in rows:
        n = fitting(before + "1000000" + behind + " ", 3)
        key = mixed(n)
        shown = each(lambda i, a=before, b=behind: f"{a}{number(i)}{b}", n, " ")
        text = each(lambda i, a=before, b=behind, key=key: f"{a}{key(i)}{b}", n, " ")
        yield Case(name, ["#{", text, "}"], element("#{", shown, "}"), times)
    n = fitting("1000000 ", 3)
    yield Case("an element twice", ["#{", each(lambda i: f"{number(i)} ", n - 1), "1000000}"], everywhere(f"Duplicate at {8 * n - 6}"))
    yield Case("always the same element", ["#{", repeat("0 ", Length.size // 2 - 2), "}"], everywhere("Duplicate at 4"))


def blanks():
    rows = (("commas", ","), ("newlines", "\n"), ("one comment", ";"), ("comments", ";\n"), ("longer comments", '; a [ " }\n'),
            ("discards", "#_0 "), ("discards of collections", "#_[]"), ("discards of discards", "#_#_0 0 "),
            ("64 discards that wait", "#_" * 64 + "0 " * 64))
    for name, part in rows:
        count = fitting(part)
        nothing = refused(f"Nothing at {len(part) * count}")
        yield Case(name, [repeat(part, count)], {"run": nothing, "check": nothing, "audit": nothing, "print": printed()})
    count = fitting("#_0 ", 2)
    yield Case("a discard that waits at the end", [repeat("#_0 ", count), "#_"], everywhere(f"EndsEarly at {4 * count + 2}"))
    for name, part in (("commas", ","), ("comments", ";\n"), ("discards", "#_0 "), ("discards of collections", "#_{}")):
        inside = repeat(part, fitting(part, 400))
        yield Case(f"{name} in a workload", workload(inside), {
            "run": printed("commits 0\naudit ok\n"), "check": printed("workload ok\n")})
        yield Case(f"{name} in a dump", dump(entries=["[", inside, "]"]), verdict("ok"))


def brackets():
    n = fitting("0 ", 100)
    zeros = repeat("0 ", n)
    keys = fitting("1000000 0 ", 100)
    pairs = entries(number, keys)
    yield Case("a vector without end", ["[", zeros], everywhere(f"EndsEarly at {2 * n + 1}"))
    yield Case("64 vectors without end", ["[" * 64, zeros], everywhere(f"EndsEarly at {2 * n + 64}"))
    yield Case("a map without end", ["{", pairs], everywhere(f"EndsEarly at {10 * keys}"))
    yield Case("a bracket that closes nothing", ["]", zeros], everywhere("WrongClose at 0"))
    yield Case("a vector that a brace closes", ["[", zeros, "}"], everywhere(f"WrongClose at {2 * n + 1}"))
    yield Case("a map that a bracket closes", ["{", pairs, "]"], everywhere(f"WrongClose at {10 * keys}"))
    yield Case("a bracket where a discard waits", ["[", zeros, "#_]"], everywhere(f"WrongClose at {2 * n + 3}"))
    trailing = {command: refused(f"Trailing at {2 * n + 2}") for command in ("run", "check", "audit")}
    yield Case("a bracket too many", ["[", zeros, "]]"], {**trailing, "print": refused(f"WrongClose at {2 * n + 2}")})
    trailing = {command: refused("Trailing at 13") for command in ("run", "check", "audit")}
    yield Case("elements behind a workload", ["{:version 1} ", zeros], {
        **trailing, "print": printed("{:version 1}\n", repeat("0\n", n))})


# ---- workloads


def workload(*pieces, version=1):
    return [f"{{:version {version} ", *pieces, "}"]


KINDS = (("ref", "r", ""), ("atom", "x", ""), ("agent", "g", " ready"))


def all_kinds(value, front=""):
    """As many references of each kind as there may be, and their lines."""
    count = scaled(REFERENCES)
    declared, lines = [], []
    for kind, letter, state in KINDS:
        declared += [f":{kind}s [", each(lambda i, c=letter: f"[{front}{c}{i} {value(i)}]", count), "]"]
        lines += [each(lambda i, k=kind, c=letter, s=state: f"{k} {front}{c}{i} {value(i)}{s}\n", count)]
    return declared, lines


def values():
    """Large values, one by one or in all references."""
    room = 100
    n, keys, deep = fitting("0 ", room), fitting("1000000 0 ", room), "[" * 47 + "]" * 47
    long = ['"', repeat("a", Length.size - room), '"']
    rows = (("string", long, long, 32), ("vector", listed("0 ", n), ["[", joined("0", n), "]"], 32),
            ("map", ["{", entries(mixed(keys), keys), "}"], ["{", entries(number, keys, ", "), "}"], 32),
            ("vector of 48 levels", listed(deep, fitting(deep, room)), ["[", joined(deep, fitting(deep, room)), "]"], 64),
            ("vector of small ones", listed("[]", n), ["[", joined("[]", n), "]"], 64))
    for name, text, shown, times in rows:
        begin = "{:added 0, :agents [], :atoms [], :base-atoms [], :base-refs [["
        end = " 0]], :commits 0, :dump 3, :entries [], :folded [0 0 0], :point 0, :refs [["
        yield Case(f"a ref with a long {name}", workload(":refs [[a ", text, "]]"), {
            "run": printed("ref a ", shown, "\ncommits 0\naudit ok\n"),
            "run --dump": printed(begin, shown, end, shown, " nil]], :taken 0, :tally nil}\n"),
            "check": printed("workload ok\n")}, times)
    nest, row, word = "[" * 48 + "]" * 48, "0 " * 640, "a" * 1_300
    rows = (("strings", lambda i: f'"{word}{i}"', 32), ("vectors", lambda i: f"[{row}{i}]", 32), ("48 levels", lambda i: nest, 64))
    for name, value, times in rows:
        declared, lines = all_kinds(value)
        yield Case(f"all references, with {name}", workload(*declared), {
            "run": printed(*lines, "commits 0\naudit ok\n"), "check": printed("workload ok\n")}, times)
    count = scaled(REFERENCES)
    front = each(lambda i: f"[r{i} {nest}]", count - 1)
    yield Case("49 levels in the last ref", workload(":refs [", front, f"[r [{nest}]]]"), no_workload(f"BadReference ref {count - 1}"), 64)


def long_names():
    count, front = scaled(REFERENCES), "n" * 600
    declared, lines = all_kinds(lambda i: "0", front)
    swaps = each(lambda i: f"[:swap {front}x{i} inc]", count)
    lines[1] = each(lambda i: f"atom {front}x{i} 1\n", count)
    yield Case("names that differ at their ends, and a step on each atom", workload(*declared, ":workers [[", swaps, "]]"), {
        "run": printed(*lines, "commits 0\naudit ok\n"), "check": printed("workload ok\n")})
    last = declared[:6] + [":agents [", each(lambda i: f"[{front}g{i} 0]", count - 1), f"[{front}r0 0]]"]
    yield Case("the last agent has the name of the first ref", workload(*last), no_workload(f"NameTwice agent {count - 1}"))
    long = repeat("a", Length.size - 100)
    yield Case("a long name", workload(":atoms [[", long, " 0]]"), {
        "run": printed("atom ", long, " 0\ncommits 0\naudit ok\n"), "check": printed("workload ok\n")})
    yield colliding(count)


def colliding(count):
    """As many steps as there may be on the last of many references whose names would fall on one place of a table by default."""
    told = names_of_one_place(2 * count)
    refs, atoms = told[:count], told[count:]
    steps = scaled(STEPS)
    declared = [":refs [", [f"[{name} 0]" for name in refs], "] :atoms [", [f"[{name} 0]" for name in atoms], "]"]
    lines = [[f"ref {name} 0\n" for name in refs], [f"atom {name} 0\n" for name in atoms[:-1]], f"atom {atoms[-1]} {WORKERS * steps}\n"]
    text = workload(declared, in_all(f"[:swap {atoms[-1]} inc]", steps))
    return Case("steps on the last of all refs and atoms, whose names collide", text, {
        "check": printed("workload ok\n"), "run": printed(lines, "commits 0\naudit ok\n")}, 64)


def names_of_one_place(count):
    # A group of the table has nine names on average, and there are a power of two of these.
    bits = math.ceil(math.log2(math.ceil(count / 9)))
    program = Path(tempfile.gettempdir()) / f"collide-{os.getpid()}"
    try:
        subprocess.run([os.environ.get("CC", "cc"), "-O2", "-o", program, HERE / "collide.c"], check=True)
        return subprocess.run([program, str(count), str(bits)], check=True, capture_output=True, text=True).stdout.split()
    finally:
        program.unlink(missing_ok=True)


def too_many():
    """Workloads with millions of a part."""
    n = fitting("[]", 200)
    empty, zeros = repeat("[]", n), repeat("0 ", n)
    yield Case("millions of workers", workload(":workers [", empty, "]"), no_workload("TooMany"), 64)
    yield Case("millions of steps", workload(":workers [[", empty, "]]"), no_workload("TooMany"), 64)
    for kind in ("ref", "atom", "agent"):
        yield Case(f"millions of {kind}s", workload(f":{kind}s [", empty, "]"), no_workload("TooMany"), 64)
        yield Case(f"a long {kind}", workload(f":{kind}s [[a ", zeros, "]]"), no_workload(f"BadReference {kind} 0"))
    yield Case("a long rule", workload(":refs [[a 0 [= ", zeros, "]]]"), no_workload("BadReference ref 0"))
    begin = ":refs [[a 0]] :atoms [[x 0]] :agents [[g 0]] :workers [[["
    forms = (":tx", ":swap x +", ":reset x", ":cas x 0 0", ":send g +", ":restart g 0", ":mode g", ":validator x", ":tx [:alter a +")
    for step in forms:
        end = "]" * (3 + step.count("["))
        yield Case(f"a long step {step}", workload(begin, step, " ", zeros, end), no_workload("BadStep 0 0"))
    for step in (":send-carry g [inc]", ":send-carry g [inc", ":send-carry g [inc] [g inc", ":tx [:send-carry g [inc]"):
        end = "]" * (3 + step.count("[") - step.count("]"))
        yield Case(f"a long step {step}", workload(begin, step, " ", zeros, end, version=2), no_workload("BadStep 0 0"))
    yield Case("millions of other keys", workload(entries(number, fitting("1000000 0 ", 100))), no_workload("NotWorkload"))
    yield Case("the greatest pool", workload(":pool 9223372036854775807"), no_workload("TooMany"))
    sends = repeat("[:send g inc]", 257)
    yield Case("257 operations", workload(":agents [[g 0]] :workers [[[:tx", sends, "]]]"), no_workload("BadStep 0 0"))


def in_all(step, steps):
    """All workers, with the same steps."""
    return [" :workers [", [listed(step, steps)] * WORKERS, "]"]


def steps():
    """As many steps of each kind as there may be, and what their report says."""
    count = scaled(STEPS)
    n = WORKERS * count

    def all_refused(reason):
        return each(lambda i: f"refused {i // count} {i % count} {reason}\n", n)

    committed = (
        ("", "[:tx]", ""),
        (":refs [[a 0]]", "[:tx[:alter a inc]]", f"ref a {n}\n"),
        (":refs [[a 0]]", "[:tx[:commute a inc]]", f"ref a {n}\n"),
        (":refs [[a 0 :tally]]", "[:tx[:commute a + 1]]", f"ref a {n}\n"),
        (":refs [[a 0]]", "[:tx[:ensure a]]", "ref a 0\n"),
        (":refs [[a 0]]", "[:tx[:set a 7]]", "ref a 7\n"),
        (":refs [[a 0]]", "[:tx[:require a = 0]]", "ref a 0\n"),
        (":agents [[g 0]]", "[:tx[:send g inc]]", f"agent g {n} ready\n"),
        # The first action fails, and all others wait.
        (":agents [[g :k]]", "[:tx[:send g inc]]", "agent g :k failed\n"),
    )
    for declared, step, line in committed:
        yield Case(f"steps {step} of {declared or 'nothing'}", workload(declared, in_all(step, count)), {
            RUN: printed(line, f"commits {n}\naudit ok\n"), "check": printed("workload ok\n")}, 64)
    others = (
        (":atoms [[x 0]]", "[:swap x inc]", f"atom x {n}\n"),
        (":atoms [[x 0]]", "[:reset x 7]", "atom x 7\n"),
        (":atoms [[x 0]]", "[:cas x 0 0]", "atom x 0\n"),
        (":atoms [[x 0]]", "[:cas x 1 1]", "atom x 0\n"),
        (":agents [[g 0]]", "[:send g inc]", f"agent g {n} ready\n"),
        (":agents [[g :k :continue]]", "[:send g inc]", "agent g :k ready\n"),
        (":agents [[g 0]]", "[:mode g :fail]", "agent g 0 ready\n"),
        (":atoms [[x 0]]", "[:validator x[= 0]]", "atom x 0\n"),
    )
    for declared, step, line in others:
        yield Case(f"steps {step} of {declared}", workload(declared, in_all(step, count)), {
            RUN: printed(line, "commits 0\naudit ok\n")}, 64)
    carried = (
        (":agents [[g 0][h 0]]", "[:send-carry g[inc][h inc]]", f"agent g {n} ready\nagent h {n} ready\n"),
        (":agents [[g :k :continue][h 0]]", "[:send-carry g[inc][h inc]]", "agent g :k ready\nagent h 0 ready\n"),
    )
    for declared, step, line in carried:
        yield Case(f"steps {step} of {declared}", workload(declared, in_all(step, count), version=2), {
            RUN: printed(line, "commits 0\naudit ok\n")}, 64)
    none = (
        (":refs [[a 0]]", "[:tx[:require a = 1]]", "ref a 0\n", "not-met"),
        (":refs [[a 1]]", "[:tx[:alter a conj]]", "ref a 1\n", "wrong-kind"),
        (":refs [[a 1]]", "[:tx[:alter a inc 1]]", "ref a 1\n", "wrong-arity"),
        (":refs [[a 9223372036854775807]]", "[:tx[:commute a inc]]", "ref a 9223372036854775807\n", "overflow"),
        (":refs [[a 0 [<= 0]]]", "[:tx[:alter a inc]]", "ref a 0\n", "invalid"),
        (":refs [[a 0 :tally]]", "[:tx[:set a 0]]", "ref a 0\n", "tally-only"),
        (":refs [[a 0]]", "[:validator a[= 1]]", "ref a 0\n", "invalid"),
        (":atoms [[x 0 [<= 0]]]", "[:swap x inc]", "atom x 0\n", "invalid"),
        (":agents [[g 0]]", "[:restart g 0]", "agent g 0 ready\n", "not-failed"),
    )
    for declared, step, line, reason in none:
        yield Case(f"refused steps {step} of {declared}", workload(declared, in_all(step, count)), {
            RUN: printed(line, all_refused(reason), "commits 0\naudit ok\n")}, 64)
    yield Case("steps [:send g inc] of an agent that fails", workload(":agents [[g :k]]", in_all("[:send g inc]", count)), {
        RUN: Wanted(0, [], complaint=partial(complaint_of_failed, count))}, 64)
    part = "[:tx[:alter a inc][:commute t + 1]][:swap x inc][:send g inc]"
    n = WORKERS * (count // 3)
    declared = ":refs [[a 0][t 0 :tally]] :atoms [[x 0]] :agents [[g 0]] :pool 16"
    yield Case("steps of several kinds", workload(declared, in_all(part, count // 3)), {
        RUN: printed(f"ref a {n}\nref t {n}\natom x {n}\nagent g {n} ready\ncommits {n}\naudit ok\n")}, 64)
    yield from last_steps(count)


def last_steps(count):
    """The last of all steps is wrong."""
    begin = [":workers [", [listed("[:tx]", count)] * (WORKERS - 1), "[", repeat("[:tx]", count - 1)]
    for step, words in (("[:tx[:set]]", "BadStep"), ("[:swap y inc]", "UnknownName"), ("[:swap x >=]", "UnknownFun")):
        text = workload(":atoms [[x 0]]", *begin, step, "]]")
        yield Case(f"{step} at the end", text, no_workload(f"{words} {WORKERS - 1} {count - 1}"), 64)


def complaint_of_failed(count, out):
    """What is wrong with the report of an agent that fails at its first action: sends behind that are refused, each reported once."""
    if out.readline() != b"agent g :k failed\n":
        return "the first line isn't that of an agent that is failed"
    last = (-1, -1)
    for line in out:
        place = re.fullmatch(rb"refused (\d+) (\d+) agent-failed\n", line)
        if not place:
            break
        here = int(place[1]), int(place[2])
        if not (last < here and here[0] < WORKERS and here[1] < count):
            return f"{line} stands behind {last}"
        last = here
    return "" if (line, out.read(100)) == (b"commits 0\n", b"audit ok\n") else f"the report has the line {line[:80]}"


def operations():
    """Transactions with as many operations as there may be."""
    rows = (
        (":refs [[a 0]]", "[:alter a inc]", "ref a {}\n"),
        (":refs [[a 0]]", "[:commute a inc]", "ref a {}\n"),
        (":refs [[a 0]]", "[:ensure a]", "ref a 0\n"),
        (":refs [[a 0]]", "[:require a int?]", "ref a 0\n"),
        (":refs [[a 0]]", "[:set a 7]", "ref a 7\n"),
        (":agents [[g 0]]", "[:send g inc]", "agent g {} ready\n"),
        (":refs [[a 0]]", "[:alter a max 0 0 0 0 0 0 0 0]", "ref a 0\n"),
    )
    for declared, operation, line in rows:
        step = "[:tx" + operation * 256 + "]"
        count = max(1, fitting(step, 2_000) // WORKERS)
        n = WORKERS * count
        yield Case(f"256 times {operation}", workload(declared, in_all(step, count)), {
            RUN: printed(line.format(n * 256), f"commits {n}\naudit ok\n")}, 64)
    refs = scaled(REFERENCES)
    # 61 is prime to the number of refs, so these are different ones, if there are as many.
    parts = ["[:tx" + "".join(f"[:alter r{(i * 61 + w) % refs} inc]" for i in range(256)) + "]" for w in range(WORKERS)]
    count = max(1, (Length.size - 100_000) // sum(map(len, parts)))
    totals = [0] * refs
    for w in range(WORKERS):
        for i in range(256):
            totals[(i * 61 + w) % refs] += count
    text = workload(":refs [", each(lambda i: f"[r{i} 0]", refs), "] :workers [", [listed(part, count) for part in parts], "]")
    lines = each(lambda i: f"ref r{i} {totals[i]}\n", refs)
    yield Case("256 refs in each transaction", text, {RUN: printed(lines, f"commits {WORKERS * count}\naudit ok\n")}, 64)


# ---- dumps


EMPTY = {
    "added": "0", "agents": "[]", "atoms": "[]", "base_atoms": "[]", "base_refs": "[]", "commits": "0", "dump": "1",
    "entries": "[]", "folded": "[0 0]", "point": "0", "refs": "[]", "tally": "nil",
}  # fmt: skip
# What version 3 has instead.
VERSION_3 = {"dump": "3", "folded": "[0 0 0]", "taken": "0"}
ONE_REF = {"base_refs": "[[0 0]]", "refs": "[[0 nil]]"}
ONE_ATOM = {"base_atoms": "[0]", "atoms": "[[0 nil]]"}
# What stands around the parts of a dump, at most.
AROUND = 400


def dump(**keys):
    """A dump that differs from that of an empty world in these keys."""
    return ["{", [[f":{key.replace('_', '-')} ", value, " "] for key, value in {**EMPTY, **keys}.items()], "}"]


def dumps():
    rows = (
        ("[:tx 0 0 0[][]]", {}, 1), ("[:tx 0 0 0[][[9 inc[]]]]", {}, 1), ("[:tx 0 0 0[[:set 0 0 0]][]]", ONE_REF, 1),
        ("[:tx 0 0 0[[:alter 0 max[]0]][]]", ONE_REF, 1), ("[:tx 0 0 0[[:commute 0 max[]9]][]]", ONE_REF, 1),
        ("[:tx 0 0 0[[:ensure 0 0]][]]", ONE_REF, 1), ("[:reset 0 0]", ONE_ATOM, 0), ("[:swap 0 max[]0]", ONE_ATOM, 0),
    )  # fmt: skip
    for entry, keys, commits in rows:
        count = fitting(entry, AROUND)
        keys = {"entries": listed(entry, count), "commits": str(commits * count), **keys}
        yield Case(f"{count:,} entries {entry}", dump(**keys), verdict("ok"), 64)
    for made, key in (("[:made-ref 0]", "refs"), ("[:made-atom 0]", "atoms")):
        count = fitting(made + "[0 nil]", AROUND)
        keys = {"entries": listed(made, count), key: listed("[0 nil]", count)}
        yield Case(f"{count:,} entries {made}", dump(**keys), verdict("ok"), 64)
    count = fitting("[:reset 0 0]", AROUND)
    front = ["[", repeat("[:reset 0 0]", count - 1)]
    for entry, words in (("[:reset 1 0]", f"no entry {count} no-such"), ("[:swap 0 conj[]0]", f"no entry {count} refuses"),
                         ("[:swap 0 inc[]2]", f"no entry {count} answer"), ("[:reset 0 1]", "no atom 0 value")):
        yield Case(f"{entry} at the end", dump(entries=[*front, entry, "]"], **ONE_ATOM), verdict(words), 64)
    yield Case("[:reset 0] at the end", dump(entries=[*front, "[:reset 0]]"], **ONE_ATOM), {"audit": refused(f"BadEntry {count}")}, 64)
    yield from long_transactions()
    yield from references_of_dumps()
    yield from agents_of_dumps()
    yield from numbers_of_dumps()


def long_transactions():
    """Dumps of one transaction. A workload has at most 256 operations in one, and a dump has no such limit."""
    for operation in ("[:set 0 0 0]", "[:alter 0 max[]0]", "[:commute 0 max[]9]", "[:ensure 0 0]"):
        count = fitting(operation, AROUND)
        one = ["[[:tx 0 0 0", listed(operation, count), "[]]]"]
        yield Case(f"{count:,} operations {operation}", dump(entries=one, commits="1", **ONE_REF), verdict("ok"), 64)
    count = fitting("[0 0][0 nil][:commute 1000000 max[]9]", AROUND)
    refs = {"base_refs": listed("[0 0]", count), "refs": listed("[0 nil]", count)}
    one = ["[[:tx 0 0 0[", each(lambda i: f"[:commute {i} max[]9]", count), "][]]]"]
    yield Case(f"a transaction that commutes {count:,} refs", dump(entries=one, commits="1", **refs), verdict("ok"), 64)
    count = fitting("[0 inc[]]", AROUND)
    yield Case(f"{count:,} sends", dump(entries=["[[:tx 0 0 0[]", listed("[0 inc[]]", count), "]]"], commits="1"), verdict("ok"), 64)


def references_of_dumps():
    count = fitting("[0 0][0 nil]", AROUND)
    bases = listed("[0 0]", count)
    yield Case(f"{count:,} refs", dump(base_refs=bases, refs=listed("[0 nil]", count)), verdict("ok"), 64)
    yield Case("a ref too few", dump(base_refs=bases, refs=listed("[0 nil]", count - 1)), verdict(f"no ref {count - 1} value"), 64)
    count = fitting("0 [0[= 0]]", AROUND)
    yield Case(f"{count:,} atoms with rules", dump(base_atoms=listed("0 ", count), atoms=listed("[0[= 0]]", count)), verdict("ok"), 64)
    n = Length.size // 2 - AROUND
    long = repeat("a", n)
    bases = ['[["', long, '" 0]]']
    yield Case("a long string in a dump", dump(base_refs=bases, refs=['[["', long, '" nil]]']), verdict("ok"))
    yield Case("another long string", dump(base_refs=bases, refs=['[["', long, 'b" nil]]']), verdict("no ref 0 value"))
    keys = n // 10
    large = ["{", entries(mixed(keys), keys), "}"]
    yield Case("a long map in a dump", dump(base_atoms=["[", large, "]"], atoms=["[[", large, " nil]]"]), verdict("ok"))
    zeros = listed("0 ", fitting("0 ", AROUND))
    yield Case("refs that have no form", dump(refs=zeros), {"audit": refused("BadPart :refs")})
    yield Case("entries that have no form", dump(entries=zeros), {"audit": refused("BadEntry 1")})
    yield Case("other keys", ["{", entries(number, fitting("1000000 0 ", 2)), "}"], {"audit": refused("NotDump")})


def agents_of_dumps():
    count = fitting("[inc[]]", AROUND)
    yield Case(f"a queue of {count:,}", dump(agents=["[[0[]", listed("[inc[]]", count), "0 :ready nil]]"]), verdict("ok"), 64)
    for action, by in (("[inc[]:done]", 1), ("[- [1]:done]", -1), ("[inc[]:passed]", 0), ("[inc[]:failed]", 0)):
        count = fitting(action, AROUND)
        agent = ["[[0", listed(action, count), f"[]{by * count} :ready nil]]"]
        yield Case(f"{count:,} actions {action}", dump(agents=agent), verdict("ok"), 64)
    count = fitting("[inc[]:done]", AROUND)
    agent = ["[[0", listed("[inc[]:done]", count), f"[]{count - 1} :ready nil]]"]
    yield Case("an action too many", dump(agents=agent), verdict("no agent 0 fold"), 64)
    for action, by in (("[inc[][]:done]", 1), ("[inc[][[0 inc[]]]:done]", 1), ("[inc[][" + "[9 inc[]]" * 8 + "]:passed]", 0)):
        count = fitting(action, AROUND)
        agent = ["[[0", listed(action, count), f"[]{by * count} :ready nil]]"]
        yield Case(f"{count:,} actions {action}", dump(agents=agent, **VERSION_3), verdict("ok"), 64)
    nine = "[inc[][" + "[9 inc[]]" * 9 + "]]"
    queue = ["[[0[][", repeat("[inc[][]]", fitting("[inc[][]]", AROUND)), nine, "]0 :ready nil]]"]
    yield Case("nine carried sends at the end", dump(agents=queue, **VERSION_3), {"audit": refused("BadPart :agents")}, 64)
    count = fitting("[0[][]0 :ready nil]", AROUND)
    yield Case(f"{count:,} agents", dump(agents=listed("[0[][]0 :ready nil]", count)), verdict("ok"), 64)


def numbers_of_dumps():
    """Counts and points as large as an integer may be, and one past that."""
    most = "9223372036854775807"
    nine = "[[:tx 0 0 0 [[:ensure 9 0]] []]]"
    yield Case("an entry past the greatest point", dump(point=most, entries=nine), verdict("no entry 9223372036854775808 no-such"))
    empty = "[[:tx 0 0 0 [] []]]"
    yield Case("commits past the greatest count", dump(folded=f"[{most} 0]", entries=empty, commits=most), verdict("no count"))
    added = "[[:tx 0 0 0 [[:commute 0 + [1] 1]] []]]"
    keys = {"tally": "0", "base_refs": "[[0 0]]", "refs": "[[1 nil]]", "commits": "1", "added": most}
    yield Case("additions past the greatest count", dump(folded=f"[0 {most}]", entries=added, **keys), verdict("no count"))
    yield Case("a worker past 32 bits", dump(entries="[[:tx 4294967296 0 0 [] []]]"), {"audit": refused("BadEntry 1")})
    yield Case("the greatest worker", dump(entries="[[:tx 4294967295 4294967295 0 [] []]]", commits="1"), verdict("ok"))


def long_values():
    """Steps that change nothing of a long value, and that are not to look at all of it. Two do: a commit compares what a transaction
    began with and what is there, and the end of an action the state that it was given and the agent's."""
    n, count = fitting("0 ", Length.size // 4), scaled(STEPS)
    value, shown = listed("0 ", n), ["[", joined("0", n), "]"]
    rows = (
        (":refs [[a ", "]]", "[:tx[:ensure a]]", "ref a ", "", count),
        (":refs [[a ", "]]", "[:tx[:require a = 0]]", "ref a ", "not-met", 0),
        (":refs [[a ", " [vector?]][b 0]]", "[:tx[:require a some?][:set b 0]]", "ref a ", "", count),
        (":atoms [[a ", "]]", "[:cas a [0] 0]", "atom a ", "", 0),
        (":atoms [[a ", "]]", "[:validator a [vector?]]", "atom a ", "", 0),
        (":agents [[a ", " :continue]]", "[:send a inc]", "agent a ", "", 0),
    )
    for before, behind, step, begin, reason, commits in rows:
        text = workload(before, value, behind, " :workers [", listed(step, count), "]")
        end = {"agent a ": " ready\n"}.get(begin, "\n") + ("ref b 0\n" if "b 0" in behind else "")
        told = each(lambda i, r=reason: f"refused 0 {i} {r}\n", count) if reason else ""
        lines = [begin, shown, end, told, f"commits {commits}\naudit ok\n"]
        looks = step in ("[:tx[:ensure a]]", "[:send a inc]")
        yield Case(f"{count:,} times {step} on a long value", text, {"run": printed(*lines)}, is_known=looks)


def growing():
    """Steps on what grows, or on all refs in turn. Of a vector of millions the audit looks at all members after each step."""
    n = scaled(STEPS)
    text = workload(":refs [[a []]] :workers [[", repeat("[:tx[:alter a conj 0]]", n), "]]")
    yield Case(f"{n:,} times conj on a vector", text, {"run": printed("ref a [", joined("0", n), f"]\ncommits {n}\naudit ok\n")}, 64)
    m = fitting("0 ", Length.size // 4)
    text = workload(":atoms [[x ", listed("0 ", m), "]] :workers [[", repeat("[:swap x conj 0]", n), "]]")
    shown = printed("atom x [", joined("0", m + n), "]\ncommits 0\naudit ok\n")
    yield Case("conj on a vector of millions", text, {"run": shown}, 64, True)
    count = fitting("[conj[0]:done]0 ", AROUND)
    agent = ["[[[]", listed("[conj[0]:done]", count), "[]", listed("0 ", count), ":ready nil]]"]
    yield Case(f"{count:,} actions conj in a dump", dump(agents=agent), verdict("ok"), 64)
    refs = scaled(REFERENCES)
    worker = ["[", each(lambda i: f"[:tx[:alter r{i % refs} inc]]", n), "]"]
    text = workload(":refs [", each(lambda i: f"[r{i} 0]", refs), "] :workers [", [worker] * WORKERS, "]")
    lines = each(lambda i: f"ref r{i} {WORKERS * (n // refs + (i < n % refs))}\n", refs)
    shown = printed(lines, f"commits {WORKERS * n}\naudit ok\n")
    yield Case(f"{WORKERS * n:,} transactions on {refs:,} refs", text, {RUN: shown}, 64)


def events(*pieces):
    return ["{:version 1 :refs [[a 0]] :atoms [[x 0]] :agents [[g 0]] :events [", *pieces, "]}"]


def played(*pieces, a=0, x=0, g=0, commits=0):
    return {"play": printed(*pieces, f"ref a {a}\natom x {x}\nagent g {g} ready\ncommits {commits}\naudit ok\n")}


def replies(act, reply, count):
    """So many lines of an actor that does the same again and again."""
    return each(lambda i: f"{i} 0 {act} -> {reply(i)}\n", count)


def plays():
    """Lists of events with as many actors, events and operations as there may be, and some that are at fault."""
    n = scaled(EVENTS)
    begun = each(lambda i: f"{i} {i} :begin -> point 0\n", n)
    yield Case("as many actors as events, each with a transaction", events(each(lambda i: f"[{i} :begin]", n)), played(begun), 64)
    takers = each(lambda i: f"{i} {4294967295 - i} :take -> none\n", n)
    yield Case("as many actors as events, without a job", events(each(lambda i: f"[{4294967295 - i} :take]", n)), played(takers), 64)
    added = replies(":swap x inc", lambda i: f"swapped {i} {i + 1}", n)
    yield Case("as many changes of an atom as events", events(repeat("[0 :swap x inc]", n)), played(added, x=n), 64)
    sent = replies(":send g inc", lambda i: "ok", n)
    yield Case("as many sends as events", events(repeat("[0 :send g inc]", n)), played(sent), 64)
    many = fitting("[0 :take]", 100)
    if many > EVENTS:
        yield Case("millions of events", events(repeat("[0 :take]", many)), {"play": refused("TooMany")}, 64)
    deep = fitting("[]", 100)
    yield Case("a deep event", events("[0 :reset x ", "[" * 49, "]" * 49, "]"), {"play": refused("BadEvent 0")})
    yield Case("a long event", events("[0 :send g + ", repeat("0 ", deep), "]"), {"play": refused("BadEvent 0")})
    yield Case("an actor past 32 bits", events("[4294967296 :begin]"), {"play": refused("BadEvent 0")})


def many_agents():
    """Lists of events, and a run, with many agents that aren't ready or whose queues are long, and with many references."""
    n = scaled(EVENTS) // 4
    numbered = range(1, n + 1)
    parts = ("[0 :make-agent 0]", "[0 :send [:agent {}] inc]", "[{} :take]", "[0 :take]")
    told = ("0 :make-agent 0 -> agent {}", "0 :send [:agent {}] inc -> ok", "{} :take -> job {} 0", "0 :take -> none")
    text = [each(lambda i, p=part: p.format(numbered[i]), n) for part in parts]
    lines = [each(lambda i, k=k, t=t: f"{k * n + i} " + t.replace("{}", str(numbered[i])) + "\n", n) for k, t in enumerate(told)]
    yield Case(f"{n:,} agents whose jobs are out, and {n:,} idle takes", events(text), played(lines), 64)
    n = scaled(EVENTS) // 5
    turn = (("take", "job 0 {}"), ("run", "ok"), ("finish", "changed"), ("release-carried g", "true"))
    text = ["[0 :make-agent 0][1 :send [:agent 1] inc][1 :take]", repeat("[0 :send-carry g [inc] [[:agent 1] inc]]", n - 1),
            repeat("".join(f"[0 :{act}]" for act, _ in turn), n - 1)]
    lines = ["0 0 :make-agent 0 -> agent 1\n1 1 :send [:agent 1] inc -> ok\n2 1 :take -> job 1 0\n",
             each(lambda i: f"{i + 3} 0 :send-carry g [inc] [[:agent 1] inc] -> ok\n", n - 1),
             each(lambda i: "".join(f"{n + 2 + 4 * i + k} 0 :{act} -> {reply.format(i)}\n" for k, (act, reply) in enumerate(turn)), n - 1)]
    yield Case(f"{n - 1:,} releases of what was carried to a long queue", events(text), played(lines, g=n - 1), 64)
    n = scaled(EVENTS) // 2
    text = [repeat("[0 :make-ref 0]", n), repeat(f"[0 :checkpoint {n}]", n)]
    lines = [each(lambda i: f"{i} 0 :make-ref 0 -> ref {i + 1}\n", n),
             each(lambda i: f"{n + i} 0 :checkpoint {n} -> folded {n if i == 0 else 0}\n", n)]
    yield Case(f"{n:,} checkpoints of {n:,} refs", events(text), played(lines), 64)
    count, agents = scaled(STEPS), scaled(REFERENCES)
    failing = each(lambda i: f"[:tx [:send g{i} inc] [:send g{i} inc]]", agents - 1)
    first = ["[", failing, repeat("[:send h inc]", count - agents + 1), "]"]
    text = workload(":agents [", each(lambda i: f"[g{i} :k]", agents - 1), "[h 0]] :workers [", first,
                    [listed("[:send h inc]", count)] * (WORKERS - 1), "]")
    sent = WORKERS * count - agents + 1
    lines = [each(lambda i: f"agent g{i} :k failed\n", agents - 1), f"agent h {sent} ready\ncommits {agents - 1}\naudit ok\n"]
    yield Case(f"{sent:,} sends beside {agents - 1:,} failed agents with actions that wait", text, {RUN: printed(lines)}, 64)


# ---- large dumps, and long outputs


def size_of(pieces):
    return sum(map(len, blocks(pieces)))


def read_back(pieces, shown):
    """What is wanted of a dump that may be longer than an input may be: with --large what is shown of it, and else a fault."""
    shown["audit"] = Wanted(0, ["audit ok\n"])
    shown["draw"] = Wanted(0, [], complaint=complaint_of_page)
    wanted = {f"{command} --large": of_it for command, of_it in shown.items()}
    if size_of(pieces) > FULL:
        wanted |= {command: refused("InputTooLong") for command in shown}
    return wanted


def complaint_of_page(out):
    """What is wrong with a page."""
    begin = out.read(15)
    out.seek(-8, os.SEEK_END)
    return "" if (begin, out.read()) == (b"<!DOCTYPE html>", b"</html>\n") else "no page"


def one_by_one(form, count):
    """So many parts, made by number, none of which waits for another one."""
    return lambda: (form(i) for i in range(count))


def zeros(count):
    return "[" + " ".join("0" * count) + "]"


def large_dumps():
    """Dumps of runs whose texts are short: of many transactions, and of answers that are long and all the same."""
    steps = scaled(4_000)
    n = WORKERS * steps
    entry = "[:tx {} {} {} [[:alter 0 inc [] {}] [:alter 1 inc [] {}]] []]"
    entries = each(lambda i: entry.format(i // steps, i % steps, i, i + 1, i + 1), n, " ")
    refs = {"base_refs": "[[0 0] [0 0]]", "refs": f"[[{n} nil] [{n} nil]]"}
    text = dump(entries=["[", entries, "]"], commits=str(n), **refs)
    line = "{} {} {} read {} [:alter ref 0 inc] -> {} [:alter ref 1 inc] -> {}\n"
    lines = each(lambda i: line.format(i + 1, i // steps, i % steps, i, i + 1, i + 1), n)
    yield Case(f"the dump of {n:,} transactions of two alters", text, read_back(text, {
        "history": printed(lines, f"entries {n} chosen {n}\n"),
        f"at {n}": printed(f"ref 0 {n}\nref 1 {n}\nat {n} ok\n")}), 64, is_large=True)
    n, long = 200, ['"', repeat("a", scaled(100_000)), '"']
    written = ["{:added 0, :agents [], :atoms [], :base-atoms [], :base-refs [[", long, f" 0]], :commits {n}, :dump 3, :entries [",
               [[" " * (i > 0), f"[:tx 0 {i} {i} [[:ensure 0 ", long, "]] []]"] for i in range(n)],
               "], :folded [0 0 0], :point 0, :refs [[", long, " nil]], :taken 0, :tally nil}\n"]  # fmt: skip
    size = size_of(written)
    said = f"refrun: this dump has {size} bytes; audit, history, at, draw and print read it with --large\n" if size > FULL else ""
    yield Case(f"{n} times [:ensure a] of a long string", workload(":refs [[a ", long, "]] :workers [[", repeat("[:tx [:ensure a]]", n), "]]"), {
        "run --dump": Wanted(0, written, said)}, 2_000)
    lines = [[f"{i + 1} 0 {i} read {i} [:ensure ref 0] -> ", long, "\n"] for i in range(n)]
    yield Case(f"the dump of {n} times [:ensure a] of a long string", written, read_back(written, {
        "history": printed(lines, f"entries {n} chosen {n}\n"),
        f"at {n}": printed("ref 0 ", long, f"\nat {n} ok\n"),
        "print": printed(written)}), is_large=True)
    n = 2 * Length.size
    yield Case("a string of 32 MiB", ['"', repeat("a", n), '"'], {
        "print --large": printed('"', repeat("a", n), '"\n'), "audit --large": refused("NotDump"),
        **{command: refused("InputTooLong") for command in ("print", "audit") if n + 2 > FULL}}, is_large=True)


def long_outputs():
    """Outputs that grow with the square of their texts, and are written while they are made."""
    n = 8_000
    step = "{} 0 :swap x conj 0 -> swapped {} {}\n"
    lines = one_by_one(lambda i: step.format(i, zeros(i), zeros(i + 1)), n)
    yield Case(f"a play of {n:,} times conj on a vector", ["{:version 1 :atoms [[x []]] :events [", repeat("[0 :swap x conj 0]", n), "]}"], {
        "play": printed(lines, f"atom x {zeros(n)}\ncommits 0\naudit ok\n")})
    # The answers of commutes aren't compared.
    commuted = each(lambda i: f"[:tx 0 {i} {i} [[:commute 0 conj [0] 0]] []]", n)
    refs = {"base_refs": "[[[] 0]]", "refs": f"[[{zeros(n)} nil]]"}
    line = "{} 0 {} read {} ref 0 {} -> {}\n"
    lines = one_by_one(lambda i: line.format(i + 1, i, i, zeros(i), zeros(i + 1)), n)
    yield Case(f"the changes of {n:,} times conj", dump(entries=["[", commuted, "]"], commits=str(n), **refs), {
        "history --changes": printed(lines, f"entries {n} chosen {n}\n")})
    n = fitting("[:tx 0 400000 400000 [[:commute 0 conj [0] 0]] []]", AROUND)
    commuted = each(lambda i: f"[:tx 0 {i} {i} [[:commute 0 conj [0] 0]] []]", n)
    lines = one_by_one(lambda i: line.format(n - 9 + i, n - 10 + i, n - 10 + i, zeros(n - 10 + i), zeros(n - 9 + i)), 10)
    yield Case(f"the last changes of {n:,} times conj", dump(entries=["[", commuted, "]"], commits=str(n), **refs), {
        f"history --changes --from {n - 9}": printed(lines, f"entries {n} chosen 10\n")}, 64)


GROUPS = (
    nesting, strings, names, integers, vectors, maps, blanks, brackets, values, long_names, too_many, steps, operations, dumps,
    long_values, growing, plays, many_agents, large_dumps, long_outputs,
)  # fmt: skip
