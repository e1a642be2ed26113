"""What a program takes on its command line, as its source says it: the calls that build it for clap, made here as they stand there.

Of Rust that is little: constants, `let`, names, texts, numbers, structs and their fields, and calls of functions and methods. All else is an
`Unknown`. What the help has of the words of other crates is listed here as those crates list it (`LISTS`).
"""

import re
import textwrap
from dataclasses import dataclass, field
from pathlib import Path

CRATES = Path(__file__).resolve().parent.parent / "crates"

# The greatest number of each kind that an option may take.
GREATEST = {"u32": 2**32 - 1, "u64": 2**64 - 1}


class Unknown(Exception):
    """The source has something that isn't known here."""


# ---- what the program takes


@dataclass
class Number:
    """A number as a value: its kind, and its range if one is given."""

    kind: str
    bounds: tuple = None

    def complaint(self, text):
        """What is wrong with a text as such a number, or None."""
        least, most = self.bounds or (0, GREATEST[self.kind])
        if re.fullmatch(r"\+?[0-9]+", text):
            number = int(text[:1000])
            if least <= number <= most:
                return None
            is_large = self.kind == "u64" and number > GREATEST["u64"]
            return "number too large to fit in target type" if is_large else f"{number} is not in {least}..={most}"
        return "invalid digit found in string" if text else "cannot parse integer from empty string"


@dataclass
class Arg:
    name: str
    long: str = None
    value_name: str = None
    action: str = "ArgAction::Set"
    value_parser: Number = None
    help: str = ""
    required: bool = False
    conflicts_with: list = field(default_factory=list)

    def takes_value(self):
        return self.action != "ArgAction::SetTrue"

    def shown(self):
        """The argument as usage and messages show it."""
        value = f"<{self.value_name}>" * self.takes_value()
        return f"--{self.long} {value}".strip() if self.long else value


@dataclass
class Command:
    name: str
    about: str = ""
    after_help: str = ""
    version: str = None
    subcommand_required: bool = False
    args: list = field(default_factory=list)
    subcommands: list = field(default_factory=list)

    def named(self, name):
        return next((it for it in self.subcommands if it.name == name), None)

    def options(self):
        return [it for it in self.args if it.long]

    def points(self):
        """The arguments that are no options, in order."""
        return [it for it in self.args if not it.long]


# ---- lists of words


def words_of(kind):
    """The words that a step, an operation or an act begins with, as `Sentence::words` of ref_calls lists them."""
    text = (CRATES / "ref_calls" / "src" / "words.rt").read_text(encoding="utf-8").partition("pub const WORDS")[2]
    rows = re.findall(r'word: "([^"]*)",\s+stands: (.*?),\s+since: Version::(\w+),', text, re.DOTALL)
    found = [(f":{word}", kind != "Act" and since == "Two") for word, stands, since in rows if f"{kind}Word::" in stands]
    later = " ".join(word for word, is_later in found if is_later)
    return " ".join(word for word, is_later in found if not is_later) + (f", and in version 2 {later}" if later else "")


def names_of(first, last):
    """The names of Core's functions or predicates, from one to another, as ref_fun has them."""
    names = re.findall(r'^    \((\w+), "([^"]*)"\),$', (CRATES / "ref_fun" / "src" / "names.rt").read_text(encoding="utf-8"), re.MULTILINE)
    codes = [code for code, _ in names]
    return " ".join(name for _, name in names[codes.index(first) : codes.index(last) + 1])


def on_lines(words):
    """These words on lines of at most 78 columns, each behind a newline and two blanks."""
    return "".join(f"\n  {line}" for line in textwrap.wrap(words, 76, break_long_words=False, break_on_hyphens=False))


# What other crates, and functions with loops, return.
LISTS = {
    "on_lines": on_lines,
    "functions": lambda: names_of("PLUS", "DISJ"),
    "predicates": lambda: names_of("AT_LEAST", "IS_SOME"),
    **{f"Sentence::{kind}.words": lambda kind=kind: words_of(kind) for kind in ("Step", "Operation", "Act")},
}

# ---- reading it

TOKEN = re.compile(r"\s+|//[^\n]*|(\"(?:[^\"\\]|\\.)*\"|'\w+|\d[\d_]*|\w+|::|\.\.=|->|=>|.)", re.DOTALL)


def tokens_of(text):
    return [it[1] for it in TOKEN.finditer(text) if it[1]]


def string_of(literal):
    """What a literal of Rust means."""
    text = re.sub(r"\\\n\s*", "", literal[1:-1])
    return re.sub(r"\\(.)", lambda it: {"n": "\n", "t": "\t"}.get(it[1], it[1]), text)


def inside(tokens, at):
    """The tokens between the bracket at a place and the one that closes it, and the place behind that."""
    depth, begin = 0, at
    while True:
        depth += {"(": 1, "{": 1, "[": 1, ")": -1, "}": -1, "]": -1}.get(tokens[at], 0)
        at += 1
        if depth == 0:
            return tokens[begin + 1 : at - 1], at


def listed(tokens):
    """The parts between the commas of a list."""
    parts, depth = [[]], 0
    for it in tokens:
        depth += {"(": 1, "{": 1, "[": 1, "<": 1, ")": -1, "}": -1, "]": -1, ">": -1}.get(it, 0)
        if it == "," and depth == 0:
            parts.append([])
        else:
            parts[-1].append(it)
    return [it for it in parts if it]


class Source:
    """The constants and the functions of a file, and the values of their expressions."""

    def __init__(self, file):
        self.text = file.read_text(encoding="utf-8")
        self.constants, self.functions = {}, {}
        tokens = tokens_of(self.text)
        for at, it in enumerate(tokens):
            if it == "const":
                begin = tokens.index("=", at) + 1
                self.constants[tokens[at + 1]] = tokens[begin : tokens.index(";", begin)]
            elif it == "fn":
                self.functions[tokens[at + 1]] = self.function(tokens, tokens.index("(", at))

    @staticmethod
    def function(tokens, at):
        """The names of a function's parameters, and its body, which is the first block that no clause has."""
        params, at = inside(tokens, at)
        is_clause = False
        while tokens[at] != "{" or is_clause:
            if tokens[at] == "{":
                _, at = inside(tokens, at)
                is_clause = False
            else:
                is_clause = is_clause or tokens[at] in ("requires", "ensures", "ghost")
                at += 1
        return [it[0] for it in listed(params)], inside(tokens, at)[0]

    def constant(self, name):
        if name in self.constants:
            return self.value(self.constants[name], {})
        used = re.search(rf"^use (\w+)::{name};", self.text, re.MULTILINE)
        for file in sorted((CRATES / used[1] / "src").glob("*.rt")) if used else ():
            found = re.search(rf"^pub const {name}: \w+ = (\d+);", file.read_text(encoding="utf-8"), re.MULTILINE)
            if found:
                return int(found[1])
        raise Unknown(f"the name {name}")

    def call(self, name, args):
        if name in LISTS:
            return LISTS[name](*args[1:])
        if name not in self.functions:
            raise Unknown(f"the function {name}")
        params, body = self.functions[name]
        known = dict(zip(params, args))
        while body and body[0] == "let":
            end = self.end_of_statement(body)
            known[body[1]] = self.value(body[3:end], known)
            body = body[end + 1 :]
        return self.value(body, known)

    @staticmethod
    def end_of_statement(tokens):
        depth = 0
        for at, it in enumerate(tokens):
            depth += {"(": 1, "{": 1, "[": 1, ")": -1, "}": -1, "]": -1}.get(it, 0)
            if it == ";" and depth == 0:
                return at
        raise Unknown("a statement without an end")

    def value(self, tokens, known):
        """What an expression means: a name or a call, and then methods, in order."""
        value, at = self.first(tokens, known)
        while at < len(tokens):
            if tokens[at] == "?":
                at += 1
            elif tokens[at] == "." and tokens[at + 2 : at + 3] == ["("]:
                args, end = inside(tokens, at + 2)
                value = self.method(value, tokens[at + 1], [self.value(it, known) for it in listed(args)])
                at = end
            elif tokens[at] == "." and isinstance(value, dict) and tokens[at + 1] in value:
                value, at = value[tokens[at + 1]], at + 2
            elif tokens[at] == "..=":
                return value, self.value(tokens[at + 1 :], known)
            else:
                raise Unknown(" ".join(tokens[at : at + 4]))
        return value

    def first(self, tokens, known):
        """What an expression begins with, and the place behind it."""
        head, path, at = tokens[0], [tokens[0]], 1
        if head[0] == '"':
            return string_of(head), 1
        if head[0].isdigit():
            return int(head.replace("_", "")), 1
        if head in ("true", "false"):
            return head == "true", 1
        if not re.fullmatch(r"\w+", head):
            raise Unknown(" ".join(tokens[:4]))
        while tokens[at : at + 1] == ["::"]:
            path.append(tokens[at + 1])
            at += 2
        name = "::".join(path)
        if tokens[at : at + 1] == ["("]:
            args, at = inside(tokens, at)
            args = [self.value(it, known) for it in listed(args)]
            made = {"Command::new": Command, "Arg::new": Arg}.get(name)
            return args[0] if name == "Ok" else made(args[1]) if made else self.call(name, args), at
        if tokens[at : at + 1] == ["{"]:
            fields, at = inside(tokens, at)
            return {it[0]: self.value(it[2:], known) for it in listed(fields)}, at
        if tokens[at : at + 1] == ["!"]:
            args, at = inside(tokens, at + 1)
            return self.macro(name, args, known), at
        if len(path) > 1:
            return name, at
        return known[name] if name in known else self.constant(name), at

    def macro(self, name, tokens, known):
        if name == "value_parser" and tokens[0] in GREATEST:
            return Number(tokens[0])
        if name == "format" and tokens[-1][0] == '"':
            return re.sub(r"\{(\w+)\}", lambda it: str(known[it[1]] if it[1] in known else self.constant(it[1])), string_of(tokens[-1]))
        raise Unknown(f"the macro {name} of {' '.join(tokens)}")

    @staticmethod
    def method(value, name, args):
        if isinstance(value, Number) and name == "range":
            return Number(value.kind, args[0])
        if isinstance(value, str) and name == "as_str":
            return value
        if isinstance(value, str) and f"{value}.{name}" in LISTS:
            return LISTS[f"{value}.{name}"]()
        if isinstance(value, Command) and name in ("arg", "subcommand"):
            getattr(value, name + "s").append(args[0])
        elif isinstance(value, Arg) and name == "conflicts_with":
            value.conflicts_with.append(args[0])
        elif isinstance(value, (Arg, Command)) and name in value.__dataclass_fields__ and len(args) == 1:
            setattr(value, name, args[0])
        else:
            raise Unknown(f"the call {name} on {type(value).__name__}")
        return value


def command_of(file):
    """What the program takes, as this source says: its functions `command` and `help_texts`."""
    source = Source(file)
    made = "help_texts"
    try:
        return source.call("command", [None, source.call(made, [None])])
    except (IndexError, KeyError, TypeError, AttributeError) as error:
        raise Unknown(f"an expression ({error!r})") from error
