"""Pages of Markdown as GitHub shows them: the anchors of headings, links that are defined once a page, and a check of all links.

For `reference`.
"""

import os
import re
import unicodedata
from pathlib import Path

FENCE = re.compile(r"^(```+).*\n(?:.*\n)*?\1$", re.MULTILINE)
HEADING = re.compile(r"^#{1,6} (.*)$", re.MULTILINE)
TARGET = re.compile(r"^\[([^\]]+)\]: (\S+)$", re.MULTILINE)
INLINE = re.compile(r"\[(?:[^\[\]]|\[[^\]]*\])*\]\(([^)\s]+)\)")
SHORT = re.compile(r"\[(`[^`\]]+`)\](?!\()")


def anchor(heading):
    """The anchor that GitHub makes of a heading."""
    kept = [it for it in heading.lower() if it in " -" or unicodedata.category(it)[0] in "LM" or unicodedata.category(it) in ("Nd", "Pc")]
    return "".join(kept).strip().replace(" ", "-")


def anchors(headings):
    """The anchors of a page's headings, in their order: one that is there already gets a number."""
    taken, found = {}, []
    for heading in headings:
        it = anchor(heading)
        count = taken[it] = taken.get(it, -1) + 1
        found.append(f"{it}-{count}" if count else it)
    return found


def code(text, language="rust"):
    return f"```{language}\n{text}\n```"


def bullets(lines):
    return "\n".join(f"- {it}" for it in lines)


def table(head, rows):
    """A table, each of whose cells is one line."""
    cells = [[re.sub(r"(?<!\\)\|", r"\\|", " ".join(it.split())) for it in row] for row in [head, *rows]]
    return "\n".join(f"| {' | '.join(row)} |" for row in [cells[0], ["---"] * len(head), *cells[1:]])


class Page:
    """A page that is being written. The target of a label stands once, at the page's end."""

    def __init__(self, name):
        self.name, self.parts, self.targets = name, [], {}

    def add(self, *parts):
        """Adds paragraphs."""
        self.parts += [it for it in parts if it]

    def link(self, label, target, behind=""):
        """A link with this label, before a text that begins so."""
        page, _, place = target.partition("#")
        if page == self.name:
            target = f"#{place}"
        known = self.targets.setdefault(label.casefold(), (label, target))
        return f"[{label}]" if known[1] == target and behind not in tuple("([:") else f"[{label}]({target})"

    def text(self):
        targets = [f"[{label}]: {target}" for label, target in sorted(self.targets.values())]
        return "\n\n".join(self.parts + (["\n".join(targets)] if targets else [])) + "\n"


def targets_in(text):
    """What the links of a page lead to, and the labels that lead nowhere."""
    plain = FENCE.sub("", text)
    labels = {label.casefold(): target for label, target in TARGET.findall(plain)}
    body = TARGET.sub("", plain)
    used = SHORT.findall(body)
    lost = sorted({it for it in used if it.casefold() not in labels})
    return sorted(set(labels.values()) | set(INLINE.findall(body))), lost


def headings(text):
    return HEADING.findall(FENCE.sub("", text))


def broken_links(texts, folder):
    """The links of pages, by their names, that lead to no page, no heading or no file. The pages stand in this folder, or will: of what
    is in it now nothing is looked at."""
    known, told = {name: set(anchors(headings(text))) for name, text in texts.items()}, []

    def file_of(page):
        return Path(os.path.normpath(folder / page))

    def is_there(page):
        return page in texts or (file_of(page).parent != folder and file_of(page).exists())

    def places(page):
        if page not in known and page.endswith(".md"):
            known[page] = set(anchors(headings(file_of(page).read_text(encoding="utf-8"))))
        return known.get(page, ())

    for name, text in sorted(texts.items()):
        found, lost = targets_in(text)
        told += [f"{name}: {it} has no target" for it in lost]
        for target in found:
            page, _, place = target.partition("#")
            page = page or name
            if page.startswith("https://"):
                continue
            if not is_there(page):
                told.append(f"{name}: there is no {page}")
            elif place and place not in places(page):
                told.append(f"{name}: {page} has no heading with the anchor {place}")
    return told
