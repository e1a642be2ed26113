"""The entries of all pages, and the links to them.

For `reference`. Each entry is known, with its page and its anchor, before a page is written.
"""

import re
from dataclasses import dataclass, field

import reference_markdown

# The kinds of entries of a crate's page, in its order, with the titles of their sections.
GROUPS = {
    "struct": "Structs", "enum": "Enums", "trait": "Traits", "fn": "Functions", "const": "Constants", "type": "Types", "mod": "Modules",
}  # fmt: skip


@dataclass
class Entry:
    """What has a heading of its own: an item, a module, or what an item has. `name` is its path in the crate."""

    place: tuple
    kind: str
    name: str
    item: object
    module: object
    block: object = None
    members: list = field(default_factory=list)
    target: str = ""

    @property
    def heading(self):
        return f"`{self.name}`" if self.kind == "method" else f"{self.kind} `{self.name}`"

    @property
    def docs(self):
        return self.item.docs if self.item else self.module.docs

    @property
    def anchor(self):
        return self.target.partition("#")[2]


def summary(docs):
    """The first sentence of a comment."""
    text = " ".join(docs[: docs.index("")] if "" in docs else docs)
    return re.split(r"(?<=[^.]\.)\s+(?=[A-Z`\[(])", text)[0].removesuffix(":")


class Book:
    """The entries by place, in groups for each crate, and where each definition stands. `lost` are the links that lead nowhere."""

    def __init__(self, scopes):
        self.scopes, self.entries, self.groups, self.lost = scopes, {}, {}, []
        self.definitions, self.sections = {}, {}
        for name in scopes.names:
            self.plan_crate(name)
            self.plan_definitions(name)

    # ---- entries

    def plan_crate(self, name):
        """Makes the entries of a crate, in the order of its page."""
        scopes, groups = self.scopes, {kind: [] for kind in GROUPS}
        for place in sorted((it for it in scopes.paths if it[0] == name), key=scopes.public_paths):
            shown = "::".join(scopes.public_paths(place)[0][1:])
            if place in scopes.items:
                groups[scopes.items[place].kind].append(self.plan_item(place, shown))
            elif len(place) > 1 and any(scopes.public_names(it) for it in scopes.paths[place]):
                groups["mod"].append(Entry(place, "mod", shown, None, scopes.modules[place]))
        self.groups[name] = {kind: found for kind, found in groups.items() if found}
        headings, entries = [f"Crate {name}", "Contents"], []
        for kind, found in self.groups[name].items():
            headings.append(GROUPS[kind])
            for it in [inner for entry in found for inner in [entry, *entry.members]]:
                entries.append((len(headings), it))
                headings.append(it.heading)
        anchors = reference_markdown.anchors(headings)
        for at, it in entries:
            it.target = f"{name}.md#{anchors[at]}"
            self.entries[it.place] = it

    def plan_item(self, place, shown):
        """The entry of an item, with those of its methods. What stands in the file of the item comes first."""
        item, module = self.scopes.items[place], self.scopes.modules[place[:-1]]
        entry = Entry(place, item.kind, shown, item, module)
        for name, it in self.scopes.members[place].items():
            if it.public and it.item:
                kind = "method" if it.kind == "fn" else it.kind
                entry.members.append(Entry(place + (name,), kind, f"{shown}::{name}", it.item, it.module, it.block))
        entry.members.sort(key=lambda it: (it.module is not module, it.module.file))
        return entry

    def plan_definitions(self, name):
        """Notes where each definition of a crate stands on its page."""
        headings, found, sections = [f"Definitions of {name}"], [], []
        for file in self.files(name):
            sections.append((len(headings), file))
            headings.append(file.name)
            for it in file.definitions:
                found.append((len(headings), file, it))
                headings.append(self.definition_heading(file, it))
        anchors = reference_markdown.anchors(headings)
        self.sections |= {(name, file.name): f"#{anchors[at]}" for at, file in sections}
        for at, file, definition in found:
            self.definitions |= {(name, file.name, it): f"specs-{name}.md#{anchors[at]}" for it in definition.all_names}

    def files(self, name):
        """The files of a crate that define something."""
        return [it for it in self.scopes.files.values() if it.crate == name and it.definitions]

    @staticmethod
    def definition_heading(file, definition):
        return ", ".join(f"`{file.name}.{it}`" for it in definition.names)

    # ---- links

    def target(self, place):
        """Where the entry of a place is, or else that of the item which has it; None if there is neither."""
        if place in self.scopes.modules and len(place) == 1:
            return f"{place[0]}.md"
        entry = self.entries.get(place) or (self.entries.get(place[:-1]) if place and place[:-1] in self.scopes.items else None)
        return entry.target if entry else None

    def target_in(self, module, path):
        """Where a path of a module leads to, or None."""
        place = self.scopes.find(module, path.split("::"))
        return self.target(place) if place else None

    def documented(self, text, module, page):
        """A comment with links: to what it names in `[..]`, to other crates' items that it names by their paths, and to documents."""
        return "".join(
            part if part.startswith("```") else self.linked(part, module, page)
            for part in re.split(r"^(```.*?^```)$", text, flags=re.MULTILINE | re.DOTALL)
        )  # fmt: skip

    def linked(self, text, module, page):
        def follows(match):
            return match.string[match.end() : match.end() + 1]

        def path(match):
            target = self.target_in(module, match[1]) if match[1].partition("::")[0] in self.scopes.names else None
            return page.link(match[0], target, follows(match)) if target else match[0]

        def document(match):
            if (self.scopes.top / match[0]).is_file():
                return f"[{match[0]}](../{match[1]})"
            self.lost.append(f"{module.source}: there is no {match[0]}")
            return match[0]

        def bracketed(match):
            target = self.target_in(module, match[3] or match[1].strip("`").removesuffix("()"))
            if target is None:
                self.lost.append(f"{module.source}: the link {match[0]} leads nowhere")
                return match[1]
            return page.link(match[1], target, follows(match))

        text = re.sub(r"^#+ (.*)$", r"**\1**", text, flags=re.MULTILINE)
        text = re.sub(r"(?<!\[)`(\w+(?:::\w+)*)`(?!\])", path, text)
        text = re.sub(r"(?<![\w/`\[])(?<!\]\()docs/(\w+\.md)", document, text)
        return re.sub(r"\[(`[^`\]]+`)\](\(((?:\w+::)*\w+)\))?(?!\()", bracketed, text)

    def word_links(self, page, text, words, own=None):
        """Links to the definitions and items that a text of clauses or definitions names."""
        links = []
        for word, (path, name) in self.scopes.words_in(text, words, own).items():
            place, kind = self.scopes.meaning(path, name)
            target = self.definitions.get(place) if kind == "definition" else self.target(place) if kind else None
            if target:
                links.append(page.link(f"`{word}`", target))
            elif kind == "definition" and "." not in word:
                self.lost.append(f"{path}: `{name}` is named, and has no entry")
        return links

    def type_links(self, page, text, module, without=None, words=()):
        """Links to the types and traits that a signature or a contract names, but for one, and for words that mean something else."""
        links = []
        for word in dict.fromkeys(re.findall(r"(?<![\w'.])(?:\w+::)*[A-Z]\w*", text)):
            place = self.scopes.find(module, word.split("::"))
            if place and place != without and word not in words and self.target(place):
                links.append(page.link(f"`{word}`", self.target(place)))
        return links

    def ghost_links(self, page, entry, clauses, bounds):
        """Links to what traits have for proofs: of a type that is bound so, as `M.means`, or of the trait that a function stands in."""
        links = []
        for word, type, name in dict.fromkeys(re.findall(r"(?<![\w.])(([A-Z]\w*)\.(\w+))", clauses)):
            traits = [it for bound in re.findall(rf"\b{type}: ([^,{{]+)", bounds) for it in re.findall(r"[A-Z]\w*", bound)]
            found = [place + (name,) for place in (self.scopes.find(entry.module, [it]) for it in traits) if place]
            links += [page.link(f"`{word}`", self.entries[it].target) for it in found if it in self.entries][:1]
        for it in self.entries[entry.place[:-1]].members if entry.place[:-1] in self.entries else []:
            if it.kind == "ghost" and re.search(rf"(?<![\w.]){it.place[-1]}\b", clauses):
                links.append(page.link(f"`{it.place[-1]}`", it.target))
        return links
