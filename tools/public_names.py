"""Which names of a library are public, by a look at its lines, and whether each has an entry on the library's page.

For `reference`. It shares nothing with what makes the entries, so that what that passes over is found here. It knows the layout of
`rt fmt`: an item begins a line, and what a type or a trait has stands four columns in.
"""

import re
from collections import Counter

from repository import TOP
from together import without_arguments

ITEM = re.compile(r"pub (fn|struct|enum|trait|const|type) (\w+)")
METHOD = re.compile(r"    (pub )?fn (\w+)")
BLOCK = re.compile(r"impl (\w+) \{|pub trait (\w+)")


def exported(texts):
    """The names that lines `pub use` take from modules of the crate itself."""
    uses = re.findall(r"^pub use (?!ref_)([^;]*);", "\n".join(texts.values()), re.MULTILINE)
    return {name for it in uses for name in re.findall(r"\w+", re.sub(r"\w+::", "", it))}


def is_public(path, texts):
    """Whether each module on the way to a file is public. The path is that of the file, as `planning/names.rt`."""
    above, modules = "lib.rt", path.removesuffix(".rt").split("/") if path != "lib.rt" else []
    for at, module in enumerate(modules):
        if not re.search(rf"^pub mod {module};", texts[above], re.MULTILINE):
            return False
        above = "/".join(modules[: at + 1]) + ".rt"
    return True


def block_of(line):
    """The type of an `impl` that begins with this line, if it is of no trait, or the trait that begins; and whether it is a trait."""
    found = BLOCK.match(without_arguments(line))
    return (found[1] or found[2], found[2] is not None) if found else ("", False)


def public_names(name):
    """The public names of a library, each with its kind, counted. What has a private module is public where it is exported."""
    source = TOP / "crates" / name / "src"
    texts = {it.relative_to(source).as_posix(): it.read_text(encoding="utf-8") for it in source.rglob("*.rt")}
    elsewhere, items, methods = exported(texts), Counter(), []
    for path, text in texts.items():
        open_to_all, block, is_trait = is_public(path, texts), "", False
        for line in text.split("\n"):
            item, method = ITEM.match(line), METHOD.match(line)
            if item and (open_to_all or item[2] in elsewhere):
                items[item[1], item[2]] += 1
            if line.startswith(("impl", "pub trait")):
                block, is_trait = block_of(line)
            elif line == "}":
                block = ""
            elif method and block and (method[1] or is_trait):
                methods.append((block, method[2]))
    types = {it for kind, it in items if kind != "fn"}
    return items + Counter(("method", f"{block}::{it}") for block, it in methods if block in types)


def entries(page):
    """The names that have an entry on a library's page, each with its kind, counted."""
    items = re.findall(r"^### (?!mod)(\w+) `(?:\w+::)*(\w+)`$", page, re.MULTILINE)
    return Counter(items) + Counter(("method", it) for it in re.findall(r"^#### `(?:\w+::)*?(\w+::\w+)`$", page, re.MULTILINE))


def complaints(name, page):
    """The public names of a library that have no entry on its page, and the entries that no public name has."""
    public, found = public_names(name), entries(page)
    lacking = [f"{name}: {kind} {it} is public, and has no entry" for kind, it in sorted(public - found)]
    return lacking + [f"{name}: {kind} {it} has an entry, and isn't public" for kind, it in sorted(found - public)]
