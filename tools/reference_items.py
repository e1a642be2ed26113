"""What a source of Rattle has: its items, each with its comment, its signature and its clauses.

For `reference`. An item is found by its words and its brackets. Lines and the layout of `rt fmt` play no part in that.
"""

import re
import textwrap
from dataclasses import dataclass, field

# What may hide a bracket, brackets, and what ends an item or a signature.
TOKEN = re.compile(
    r"""//[^\n]*|"(?:\\.|[^"\\])*"|'(?:\\.[^']*|[^\\'])'|[{}()\[\];]|\b(?:requires|ensures)\b""", re.DOTALL
)  # fmt: skip
OPENS, CLOSES = "{([", "})]"

# Items that end with a semicolon, also where they have braces.
WITHOUT_BODY = ("use", "ghost", "const", "static", "type")

HEAD = re.compile(r"(pub(?:\([^)]*\))? )?(?:unsafe )?(\w+)\b\s*(\w+)?")


class Unreadable(Exception):
    """A source that this file can't read."""


@dataclass
class Item:
    """An item of a source. `text` is what stands from its first word on, without its body; `body` what is in its braces."""

    kind: str
    name: str
    public: bool
    docs: list
    attributes: list
    text: str
    clauses: str = ""
    body: str = ""
    inner: list = field(default_factory=list)


def tokens(text, at, end):
    """Each token from a place on, with how many brackets are open behind it."""
    open_brackets = 0
    for token in TOKEN.finditer(text, at, end):
        word = token[0]
        open_brackets += (word in OPENS) - (word in CLOSES)
        yield token, word, open_brackets


def closing(text, at, end):
    """The place behind the bracket that closes the one here."""
    for token, word, open_brackets in tokens(text, at, end):
        if word in CLOSES and open_brackets == 0:
            return token.end()
    raise Unreadable(f"a bracket isn't closed: {text[at : at + 60]!r}")


def first_token(text, at, end, stops):
    """The place of the first of these tokens outside of all brackets."""
    for token, word, open_brackets in tokens(text, at, end):
        if word in stops and open_brackets == (word in OPENS):
            return token.start()
    raise Unreadable(f"an item has no end: {text[at : at + 60]!r}")


def without_indent(text, indent):
    """Lines without the indent of their item, and without blanks round them."""
    return re.sub(rf"^ {{0,{indent}}}", "", text.rstrip(), flags=re.MULTILINE).strip("\n")


def line_start(text, at):
    """The start of the line that has the first word from here on."""
    return text.rfind("\n", 0, re.compile(r"\s*").match(text, at).end()) + 1


def clauses_end(text, at, end):
    """The place behind the last clause of those that begin here."""
    last = at
    while True:
        clause = re.compile(r"(?:\s|//[^\n]*\n)*(?:requires|ensures)\b\s*\w*\s*(?=\{)").match(text, at, end)
        if not clause:
            return last
        last = at = closing(text, clause.end(), end)


def function(text, at, end, indent):
    """The signature of a function, its clauses, its body, and the place behind it."""
    stop = first_token(text, at, end, ("requires", "ensures", "{", ";"))
    signature = text[at:stop]
    # A comment on the first clause stands before it.
    before = re.search(r"\n(?:[ \t]*//[^\n]*\n)+[ \t]*$", signature)
    start = at + before.start() if before else stop
    after = clauses_end(text, start, end) if text[stop] not in "{;" else stop
    clauses = textwrap.dedent(text[line_start(text, start) : after]).strip("\n") if after > stop else ""
    rest = re.compile(r"\s*").match(text, after).end()
    if text[rest] == ";":
        return without_indent(text[at:start], indent), clauses, "", rest + 1
    if text[rest] != "{":
        raise Unreadable(f"a function has neither body nor end: {text[at:stop]!r}")
    behind = closing(text, rest, end)
    return without_indent(text[at:start], indent), clauses, text[rest + 1 : behind - 1], behind


def parse_item(text, at, end, indent, docs, attributes):
    """The item that begins here, and the place behind it."""
    head = HEAD.match(text, at, end)
    if not head:
        raise Unreadable(f"no item: {text[at : at + 60]!r}")
    public, kind, name = (head[1] or "").strip() == "pub", head[2], head[3] or ""
    if kind == "fn":
        signature, clauses, body, behind = function(text, at, end, indent)
        return Item("fn", name, public, docs, attributes, signature, clauses, body), behind
    stop = first_token(text, at, end, (";",) if kind in WITHOUT_BODY else (";", "{"))
    if text[stop] == ";":
        return Item(kind, name, public, docs, attributes, without_indent(text[at : stop + 1], indent)), stop + 1
    behind = closing(text, stop, end)
    item = Item(kind, name, public, docs, attributes, without_indent(text[at:stop], indent), body=text[stop + 1 : behind - 1])
    if kind in ("impl", "trait"):
        item.inner = parse(item.body)[1]
    return item, behind


def parse(text):
    """The comment at the head of a file or a block, as lines, and its items."""
    head, found, docs, remarks, attributes = [], [], [], [], []
    at, end = 0, len(text)
    while True:
        blank = re.compile(r"\s*").match(text, at, end)
        if blank[0].count("\n") > 1:
            remarks = []
        line_start = text.rfind("\n", 0, blank.end()) + 1
        at, indent = blank.end(), blank.end() - line_start
        if at == end:
            return head, found
        if text.startswith("//", at):
            line = text[at : text.find("\n", at) if "\n" in text[at:] else end]
            at += len(line)
            marks = [("//!", head), ("///", docs), ("//", remarks)]
            mark, lines = next(it for it in marks if line.startswith(it[0]))
            lines.append(line.removeprefix(mark).removeprefix(" "))
        elif text.startswith("#", at):
            behind = closing(text, text.index("[", at), end)
            attributes.append(text[at:behind])
            at = behind
        else:
            item, at = parse_item(text, at, end, indent, docs, attributes)
            if item.kind == "ghost" and not docs:
                # Rattle takes no doc comment before some ghost items, so a plain one says what they are.
                item.docs = remarks
            found.append(item)
            docs, remarks, attributes = [], [], []


def parts(body):
    """The variants of an enum, or the fields of a struct: the text of each, its comment and its attributes."""
    found, docs, attributes, at, end = [], [], [], 0, len(body)
    while True:
        at = re.compile(r"[\s,]*").match(body, at, end).end()
        if at == end:
            return found
        if body.startswith("//", at):
            line = body[at : body.find("\n", at) if "\n" in body[at:] else end]
            at += len(line)
            if line.startswith("///"):
                docs.append(line.removeprefix("///").removeprefix(" "))
        elif body.startswith("#", at):
            behind = closing(body, body.index("[", at), end)
            attributes.append(body[at:behind])
            at = behind
        else:
            behind = member_end(body, at, end)
            found.append((" ".join(body[at:behind].split()), docs, attributes))
            docs, attributes, at = [], [], behind


def member_end(body, at, end):
    """The place of the comma behind a variant or a field, outside of all brackets and type arguments."""
    open_brackets = 0
    for token in re.compile(r"->|[{}()\[\]<>,]").finditer(body, at, end):
        word = token[0]
        if word == "," and open_brackets == 0:
            return token.start()
        open_brackets += (word in "{([<") - (word in "})]>")
    return end
