"""Which names stand in which module, which of them are public, and what a path or a word of a clause means there.

For `reference`. A place is a tuple: the crate, the modules, the name of an item, and one name more for what an item has, as its methods,
its variants, its fields, and what a trait has for proofs alone.
"""

import re
import sys
from dataclasses import dataclass, field

import reference_definitions
import reference_items
from repository import TOP, crates, is_library

# The items that have an entry.
SHOWN = ("struct", "enum", "trait", "fn", "const", "type")


@dataclass
class Module:
    """A file of a crate. `words` are the names that its `ghost use` lines take."""

    place: tuple
    file: str
    parent: object
    public: bool
    docs: list = field(default_factory=list)
    items: list = field(default_factory=list)
    children: dict = field(default_factory=dict)
    uses: dict = field(default_factory=dict)
    words: list = field(default_factory=list)

    @property
    def source(self):
        return f"crates/{self.place[0]}/src/{self.file}"


@dataclass
class Impl:
    """A block `impl`: its type, its trait or None, and the names that its `ghost use` lines take."""

    place: tuple
    trait: str
    module: Module
    item: object
    words: list


@dataclass
class Member:
    """What an item has. `block` is the `impl` that it stands in, if any."""

    kind: str
    public: bool
    item: object
    module: Module
    block: Impl = None


@dataclass
class File:
    """A file of definitions."""

    crate: str
    name: str
    docs: list
    definitions: list
    words: list


def paths_in(text, before=()):
    """The paths that a `use` names, each with its name here."""
    found, at, depth = [], 0, 0
    for end, sign in [(it.start(), it[0]) for it in re.finditer(r"[{},]", text)] + [(len(text), ",")]:
        depth += (sign == "{") - (sign == "}")
        if sign == "," and depth == 0:
            found += paths_of(text[at:end].strip(), before)
            at = end + 1
    return found


def paths_of(text, before):
    """The paths of one part of a `use`, as `a::b`, `a as b` or `a::{b, c}`."""
    if text.endswith("}"):
        path, _, inside = text.partition("{")
        return paths_in(inside[:-1], before + tuple(it for it in path.split("::") if it.strip()))
    path, _, alias = text.partition(" as ")
    segments = before + tuple(path.strip().split("::"))
    return [(segments, alias.strip() or segments[-1])] if text else []


def arguments_end(text, at):
    """The place behind the type arguments that begin here."""
    depth = 0
    for sign in re.compile(r"->|[<>]").finditer(text, at):
        depth += (sign[0] == "<") - (sign[0] == ">")
        if depth == 0:
            return sign.end()
    return len(text)


def impl_head(text):
    """The trait of an `impl`, or None, and the path of its type."""
    text = " ".join(text.split()).removeprefix("impl")
    at = arguments_end(text, 0) if text.startswith("<") else 0
    trait, has_trait, type = text[at:].strip().partition(" for ")
    if not has_trait:
        trait, type = None, trait
    # A tuple has no path, and no place is found of it.
    return trait, re.match(r"(?:&(?:'\w+ )?(?:mut )?)?([\w:]+|\()", type)[1].split("::")


def is_ghost_use(item):
    return item.kind == "ghost" and item.name == "use"


class Scopes:
    """All library crates: their modules, items and definitions by place, and what is public of them."""

    def __init__(self, top=TOP):
        self.top, self.names = top, [it for it in crates(top) if is_library(it, top)]
        self.modules, self.items, self.members, self.impls = {}, {}, {}, []
        self.files, self.exported = {}, {}
        self.paths, self.exports = {}, []
        for name in self.names:
            self.read_module((name,), "lib.rt", None, True)
            self.read_definitions(name)
        for module in list(self.modules.values()):
            for item in module.items:
                self.read_members(module, item)
        for module in list(self.modules.values()):
            for item in module.items:
                self.read_impl(module, item)
        for name in self.names:
            self.reach(self.modules[name,], (name,))

    # ---- what is there

    def read_module(self, place, file, parent, public):
        """Reads a file, and the files of the modules that it declares."""
        text = (self.top / "crates" / place[0] / "src" / file).read_text(encoding="utf-8")
        module = self.modules[place] = Module(place, file, parent, public)
        try:
            module.docs, items = reference_items.parse(text)
        except reference_items.Unreadable as why:
            sys.exit(f"{module.source}: {why}")
        folder = "" if file == "lib.rt" else file.removesuffix(".rt") + "/"
        for it in items:
            if it.kind == "use":
                inside = re.sub(r"^(pub(\([^)]*\))? )?use\s+", "", it.text).removesuffix(";")
                module.uses |= {name: (segments, it.public) for segments, name in paths_in(inside)}
            elif it.kind == "mod" and "#[cfg(test)]" not in it.attributes:
                child = self.read_module(place + (it.name,), f"{folder}{it.name}.rt", module, it.public)
                module.children[it.name] = child
            elif is_ghost_use(it):
                module.words += reference_definitions.use_lines(it.text)
            else:
                module.items.append(it)
                if it.kind in SHOWN:
                    self.items[place + (it.name,)] = it
                    self.members[place + (it.name,)] = {}
        return module

    def read_definitions(self, name):
        """Reads the files in a crate's `specs`."""
        for source in sorted((self.top / "crates" / name / "specs").glob("*.antt")):
            text = source.read_text(encoding="utf-8")
            for path, names, _alias in reference_definitions.use_lines(text, public=True):
                crate, file = re.fullmatch(r"Rattle\.(\w+)\.specs\.(\w+)", path).groups()
                self.exported |= {(name, source.stem, here): (crate, file, there) for here, there in names.items()}
                self.exported |= {} if names else {(name, file): (crate, file)}
            docs, definitions = reference_definitions.parse(text)
            self.files[name, source.stem] = File(name, source.stem, docs, definitions, reference_definitions.use_lines(text))

    def read_members(self, module, item):
        """Notes what an item is declared with: fields, variants, or what a trait has."""
        members = self.members.get(module.place + (item.name,))
        if item.kind in ("struct", "enum"):
            for text, _docs, _attributes in reference_items.parts(item.body):
                name, public = re.match(r"(?:pub(?:\([^)]*\))? )?(\w+)", text)[1], item.kind == "enum" or text.startswith("pub ")
                members[name] = Member("variant" if item.kind == "enum" else "field", public, None, module)
        elif item.kind == "trait":
            for it in item.inner:
                if not is_ghost_use(it):
                    members[it.name] = Member(it.kind, True, it, module)

    def read_impl(self, module, item):
        """Notes what a block `impl` adds to its type."""
        if item.kind != "impl":
            return
        trait, type = impl_head(item.text)
        place = self.find(module, type)
        words = [word for it in item.inner if is_ghost_use(it) for word in reference_definitions.use_lines(it.text)]
        block = Impl(place, trait, module, item, words)
        self.impls.append(block)
        if trait is None and place:
            for it in item.inner:
                if it.kind in ("fn", "const"):
                    # A method comes before a private field of its name, and in the order of methods.
                    self.members[place].pop(it.name, None)
                    self.members[place][it.name] = Member(it.kind, it.public, it, module, block)

    # ---- paths

    def named(self, module, name):
        """The place of a name in a module, or None."""
        if module.place + (name,) in self.items:
            return module.place + (name,)
        if name in module.children:
            return module.children[name].place
        segments = module.uses.get(name, ((name,), False))[0]
        return self.find(module, segments) if segments[0] != name else None

    def find(self, module, segments):
        """The place that a path means in a module, or None."""
        first, *rest = segments
        if first == "crate":
            place = module.place[:1]
        elif first in ("self", "super"):
            place = (module if first == "self" else module.parent).place
        else:
            place = self.named(module, first) or ((first,) if (first,) in self.modules else None)
        for segment in rest:
            place = self.inside(place, segment) if place else None
        return place

    def inside(self, place, name):
        """The place of a name in a module or an item, or None."""
        if place in self.modules:
            return self.named(self.modules[place], name)
        return place + (name,) if name in self.members.get(place, {}) else None

    def reach(self, module, path):
        """Notes each public path that leads to an item or a module from here, and what is exported from other crates."""
        self.paths.setdefault(module.place, []).append(path)
        for it in module.items:
            if it.public and it.kind in SHOWN:
                self.paths.setdefault(module.place + (it.name,), []).append(path + (it.name,))
        for name, child in module.children.items():
            if child.public:
                self.reach(child, path + (name,))
        for name, (segments, public) in module.uses.items():
            place = self.find(module, segments) if public else None
            if place and place[0] != module.place[0]:
                self.exports.append((path + (name,), place))
            elif place in self.modules:
                self.reach(self.modules[place], path + (name,))
            elif place:
                self.paths.setdefault(place, []).append(path + (name,))

    def public_paths(self, place):
        """The public paths of an item or a module, the shortest first."""
        return sorted(self.paths[place], key=lambda it: (len(it), it))

    def public_names(self, path):
        """What is public in the module of a path: each name, and its place."""
        own = [(it, place) for place, found in self.paths.items() for it in found]
        return sorted((it[-1], place) for it, place in own + self.exports if it[:-1] == path)

    # ---- words of clauses

    def meaning(self, path, name):
        """What a name of a file means: the place of an item, or a definition as its crate, file and name; None for a name of the
        toolchain's library. The second answer says which."""
        crate, *rest = path.removeprefix("Rattle.").split(".")
        if crate not in self.names or rest[:1] != ["specs"]:
            return None, ""
        if rest[1] == "declared":
            place = (crate, *(it for it in rest[2:] if it != "TheVariants"))
            return (place if name == place[-1] else place + (name,)), "item"
        place = (*self.exported.get((crate, rest[1]), (crate, rest[1])), name)
        return self.exported.get(place, place), "definition"

    def words_in(self, text, words, own=None):
        """The words of a text that files define, in its order: each with the path of its file and its name there. `own` are names of
        the text's own file, with the same."""
        names, aliases, found = dict(own or {}), {}, {}
        for path, taken, alias in words:
            names |= {here: (path, there) for here, there in taken.items()}
            aliases |= {alias: path} if alias else {}
        text = re.sub(r"//[^\n]*|--[^\n]*|\"[^\"]*\"", "", text)
        bound = {it for group in re.findall(r"λ ([^.]*)\.", text) for it in group.split()}
        for match in reference_definitions.WORD.finditer(text):
            first, rest = match[1], match[2].split(".")[1:]
            if first in bound:
                continue
            if first in aliases and rest:
                found.setdefault(f"{first}.{rest[0]}", (aliases[first], rest[0]))
            elif first in names:
                found.setdefault(first, names[first])
        signs = set(re.split(r"[\s()]+", text))
        return found | {it.strip("◌"): meant for it, meant in names.items() if "◌" in it and it.strip("◌") in signs}
