"""The page of a library crate, and the page of its definitions.

For `reference`.
"""

import re
from itertools import groupby

import reference_items
from reference_book import GROUPS, summary
from reference_markdown import Page, bullets, code, table

READING = "README.md#how-to-read-a-contract"

# What an `impl` has for the prover alone.
PROOFS = ("use", "laws", "total", "matches_eq", "matches_partial_cmp")


def crate_page(book, name):
    root, groups, page = book.scopes.modules[name,], book.groups[name], Page(f"{name}.md")
    page.add(f"# Crate {name}", book.documented("\n".join(root.docs), root, page))
    others = [f"[its definitions](specs-{name}.md)"] if book.files(name) else []
    page.add(f"See also: {', '.join([*others, '[all crates](README.md)', f'[how to read a contract]({READING})'])}.")
    rows = [[f"{it.kind} {page.link(f'`{it.name}`', it.target)}", short(book, page, it)] for found in groups.values() for it in found]
    page.add("## Contents", table(["Item", "Is"], rows))
    for kind, entries in groups.items():
        page.add(f"## {GROUPS[kind]}")
        for it in entries:
            page.add(f"### {it.heading}")
            add_module(book, page, it) if kind == "mod" else add_item(book, page, it)
    exports = sorted(it for it in book.scopes.exports if it[0][0] == name)
    rows = [[f"`{'::'.join(path)}`", item_link(book, page, place)] for path, place in exports]
    page.add(*(["## Re-exports", table(["Name here", "Is"], rows)] if rows else []))
    return page.text()


def short(book, page, entry):
    """The first sentence of an entry's comment."""
    return book.documented(summary(entry.docs), entry.module, page)


def long(book, page, entry):
    """The whole comment of an entry."""
    return book.documented("\n".join(entry.docs), entry.module, page)


def item_link(book, page, place):
    """A link to an item or a module by its shortest path."""
    label = f"`{'::'.join(book.scopes.public_paths(place)[0])}`"
    target = book.target(place)
    return page.link(label, target) if target else label


def source(page, module):
    return page.link(f"`{module.file}`", f"../../{module.source}")


def links_line(types, words, file=None):
    """One line of links: to types, to definitions, and to the source if it is another one than the reader expects."""
    parts = [f"Types: {', '.join(types)}." if types else "", f"Definitions: {', '.join(dict.fromkeys(words))}." if words else ""]
    return " ".join(it for it in [*parts, f"In {file}." if file else ""] if it)


# ---- modules and items


def add_module(book, page, entry):
    """A module: its comment, and what is public in it."""
    path = book.scopes.public_paths(entry.place)[0]
    names = [(name, book.target(place)) for name, place in book.scopes.public_names(path)]
    page.add(long(book, page, entry), f"It has {', '.join(page.link(f'`{name}`', target) for name, target in names if target)}.")


def add_item(book, page, entry):
    """An item: its paths, how it is declared, its comment, what contracts see of it, its clauses, its methods."""
    first, *others = [f"`{'::'.join(it)}`" for it in book.scopes.public_paths(entry.place)]
    page.add(f"{', also '.join([first, *others])}; in {source(page, entry.module)}")
    page.add(code(declaration(entry.item)), long(book, page, entry))
    if entry.kind == "fn":
        add_contract(book, page, entry, entry.item.text)
        return
    if entry.kind == "enum":
        page.add(variants(book, page, entry))
    elif entry.kind == "struct":
        page.add(fields(book, page, entry))
    add_impls(book, page, entry)
    page.add(links_line(book.type_links(page, declaration(entry.item), entry.module, entry.place), []))
    if len(entry.members) > 3:
        add_overview(book, page, entry)
    for it in entry.members:
        add_member(book, page, entry, it)


def declaration(item):
    """An item as it is declared: a struct with its public fields, an enum with its variants if nothing is said of them."""
    if item.kind not in ("struct", "enum", "trait") or item.text.endswith(";"):
        return item.text
    parts = reference_items.parts(item.body)
    if item.kind == "enum" and not any(docs or attributes for _text, docs, attributes in parts):
        return "\n".join([f"{item.text} {{", *(f"    {it}," for it, _docs, _attributes in parts), "}"])
    shown = [it for it, _docs, _attributes in parts if it.startswith("pub ")] if item.kind == "struct" else []
    if not shown:
        return f"{item.text} {{ .. }}"
    return "\n".join([f"{item.text} {{", *(f"    {it}," for it in shown), *(["    .."] if len(shown) < len(parts) else []), "}"])


def add_overview(book, page, entry):
    """Tables of what an item has, in the order of its entries: one for each file that has some of it."""
    files = list(dict.fromkeys(it.module.file for it in entry.members))
    for file in files:
        found = [it for it in entry.members if it.module.file == file]
        if len(files) > 1:
            page.add(f"{book.documented(summary(found[0].module.docs), found[0].module, page)} In {source(page, found[0].module)}:")
        labels = [f"`{it.place[-1]}`" if it.kind == "method" else f"{it.kind} `{it.place[-1]}`" for it in found]
        page.add(table(["Name", "Is"], [[f"[{label}](#{it.anchor})", short(book, page, it)] for label, it in zip(labels, found)]))


def add_member(book, page, entry, it):
    """A method or constant of a type, or what a trait has. The `impl` is shown if it is narrower than the type's declaration."""
    block = " ".join(it.block.item.text.split()) if it.block else ""
    narrower = block and block != plain_impl(entry.item.text)
    page.add(f"#### {it.heading}", code(f"{block}\n\n{it.item.text}" if narrower else it.item.text), long(book, page, it))
    add_contract(book, page, it, f"{block or entry.item.text} {it.item.text}", entry)


def plain_impl(text):
    """The head of an `impl` that has all of a type, as its declaration names it."""
    found = re.fullmatch(r"pub (?:struct|enum|trait) (\w+)(?:<(.*)>)?;?", " ".join(text.split()))
    if not found or not found[2]:
        return f"impl {found[1]}" if found else ""
    return f"impl<{found[2]}> {found[1]}<{re.sub(r': [^,]*', '', found[2])}>"


def add_contract(book, page, it, bounds, owner=None):
    """The clauses of a function, and links to all that it names. What a trait has for proofs is a text of definitions itself."""
    scope = it.module.words + (it.block.words if it.block else [])
    file = source(page, it.module) if owner and it.module is not owner.module else None
    if it.kind == "ghost":
        page.add(links_line([], book.word_links(page, it.item.text, scope), file))
        return
    clauses = it.item.clauses
    page.add(code(clauses) if clauses else "")
    words = book.word_links(page, clauses, scope) + book.ghost_links(page, it, clauses, bounds)
    meant = book.scopes.words_in(clauses, scope)
    types = book.type_links(page, f"{it.item.text} {clauses}", it.module, owner.place if owner else None, meant)
    page.add(links_line(types, words, file))


def add_impls(book, page, entry):
    """What contracts see of a type, its traits, and what is said of it there for proofs; or the types that have a trait."""
    derived = re.findall(r"#\[derive\((.*?)\)\]", " ".join(entry.item.attributes), re.DOTALL)
    traits, texts, words = [f"`{it}`" for it in re.findall(r"\w+", ",".join(derived))], [], []
    for block in [it for it in book.scopes.impls if it.place == entry.place and it.trait]:
        scope = block.module.words + block.words
        ghosts = [it.text for it in block.item.inner if it.kind == "ghost" and it.name not in PROOFS]
        if block.trait == "Model":
            page.add(seen(book, page, ghosts, scope))
            continue
        trait = trait_of(book, block)
        if trait and trait not in book.entries:
            continue
        traits.append(page.link(f"`{block.trait}`", book.target(trait)) if trait else f"`{block.trait}`")
        if ghosts:
            inside = re.sub(r"^(?=.)", "    ", "\n".join(ghosts), flags=re.MULTILINE)
            texts.append(f"{' '.join(block.item.text.split())} {{\n{inside}\n}}")
            words += book.word_links(page, "\n".join(ghosts), scope)
    page.add(f"Implements {', '.join(traits)}." if traits else "")
    page.add(*([code("\n\n".join(texts)), links_line([], words)] if texts else []))
    if entry.kind == "trait":
        types = [it.place for it in book.scopes.impls if it.place in book.entries and trait_of(book, it) == entry.place]
        page.add(f"Implemented by {', '.join(item_link(book, page, it) for it in types)}." if types else "")


def trait_of(book, block):
    """The place of the trait of an `impl`, or None if it has none or one from elsewhere."""
    return book.scopes.find(block.module, re.match(r"[\w:]+", block.trait)[0].split("::")) if block.trait else None


def seen(book, page, ghosts, scope):
    """What contracts see in the place of a type: the `Value` of its model."""
    text = next((it for it in ghosts if it.startswith("ghost Value")), "").partition("{")[2].rpartition("}")[0].strip()
    links = book.word_links(page, text, scope)
    if links == [f"[`{text}`]"]:
        return f"Contracts see it as {links[0]}."
    return f"Contracts see it as `{text}`{' (' + ', '.join(links) + ')' if links else ''}."


# ---- variants and fields


def variants(book, page, entry):
    """A table of the variants of an enum: what is printed of it, and its comment, as far as they have these."""
    parts = reference_items.parts(entry.item.body)
    if not any(docs or attributes for _text, docs, attributes in parts):
        return ""
    messages = [re.search(r'#\[error\("((?:[^"\\]|\\.)*)"', " ".join(attributes)) for _text, _docs, attributes in parts]
    columns = {"Variant": [f"`{text}`" for text, _docs, _attributes in parts]}
    if any(messages):
        columns["Printed as"] = [it[1] if it else "" for it in messages]
    columns["Means"] = [book.documented(" ".join(docs), entry.module, page) for _text, docs, _attributes in parts]
    return table(list(columns), zip(*columns.values()))


def fields(book, page, entry):
    """A list of the public fields that have a comment."""
    parts = [(text, docs) for text, docs, _attributes in reference_items.parts(entry.item.body) if text.startswith("pub ") and docs]
    named = [(text.split()[1].rstrip(":"), book.documented(" ".join(docs), entry.module, page)) for text, docs in parts]
    return bullets(f"`{name}`: {docs}" for name, docs in named)


# ---- definitions


def definitions_page(book, name):
    page, files, library = Page(f"specs-{name}.md"), book.files(name), book.scopes.files.get((name, "Lib"))
    page.add(f"# Definitions of {name}", prose(library.docs) if library else "")
    page.add(f"See also: [{name}]({name}.md), [all crates](README.md), [how to read a contract]({READING}).")
    page.add(bullets(f"[{it.name}]({book.sections[name, it.name]}): {prose([summary(it.docs)])}" for it in files))
    for file in files:
        page.add(f"## {file.name}", prose(file.docs))
        section = ""
        for it in file.definitions:
            page.add(f"*{it.section}*" if it.section not in ("", section) else "")
            section = it.section
            add_definition(book, page, file, it)
    return page.text()


def prose(lines):
    """A comment of definitions, which isn't Markdown but for its code: indented lines are shown as they stand."""
    parts = [("\n".join(group).strip("\n"), is_code) for is_code, group in groupby(lines, key=lambda it: it.startswith("  "))]
    return "\n\n".join(code(text, "") if is_code else plain(text) for text, is_code in parts if text)


def plain(text):
    """A text with a backslash before each sign that Markdown would take for its own."""
    return re.sub(r"`[^`]*`|[\\*<]", lambda it: it[0] if it[0].startswith("`") else f"\\{it[0]}", text)


def add_definition(book, page, file, it):
    """A definition or a law: its comment, its text, and links to what it names."""
    page.add(f"### {book.definition_heading(file, it)}", prose(it.docs), code(it.text, ""))
    path = f"Rattle.{file.crate}.specs.{file.name}"
    own = {name: (path, name) for other in file.definitions if other is not it for name in other.all_names}
    links = book.word_links(page, it.text, file.words, own)
    page.add(" ".join(["A law, which is proved."] * it.is_law + ([f"It names {', '.join(links)}."] if links else [])))
