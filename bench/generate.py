#!/usr/bin/env python3
"""Writes the texts that the measurements read: generate.py FOLDER [--bytes N] [--members N] [SHAPE..]

ints            a vector of small integers, mostly of 1 to 4 digits
map             a map of distinct keywords of 8 bytes in random order, with small integers as values
set             a set of distinct integers in random order
row             a vector of the same integers in the same order
maps            a vector of small nested maps with keywords and strings
small-vectors   a vector of vectors, up to four levels deep, of up to four members each: small integers and further such vectors
small-maps      a vector of maps, up to four levels deep, of up to three keywords each, with small integers and further such maps
strings         a vector of strings, half of them with escapes
remarks         a vector of small integers between comments and discards

A map, a set and a row have --members members (200,000), and the others are --bytes long (16 MiB) or a few bytes less.
Each shape is written as SHAPE.edn and, but for remarks, as the same data in SHAPE.json. The seeds are fixed, so that
each run writes the same bytes.
"""
import argparse
import os
import random

ALL_BYTES = 16 * 1024 * 1024
ALL_MEMBERS = 200_000

NAMES = ["ann", "bob", "carla", "dmitri", "eve", "françois", "grace", "henry the 8th"]
TAGS = ["a", "b", "c/d", "left", "right", "app.core/on-load", "x?"]
KEYS = "abcdefgh"
WORDS = "the quick brown fox jumps over a lazy dog while nobody in town looks up".split()
# What these mean is the same in EDN and in JSON.
ESCAPES = ["\\n", '\\"', "\\\\", "\\t", "\\u00e9", "\\r", "é"]


def small(rand):
    digits = rand.choices([1, 2, 3, 4, 5, 7, 10], [22, 24, 24, 22, 4, 3, 1])[0]
    n = rand.randrange(10 ** (digits - 1) if digits > 1 else 0, 10**digits)
    return str(-n if n and rand.random() < 0.1 else n)


def string(rand):
    words = rand.choices(WORDS, k=rand.randrange(1, 12))
    if rand.random() < 0.5:
        for _ in range(rand.randrange(1, 5)):
            words.insert(rand.randrange(len(words) + 1), rand.choice(ESCAPES))
    return '"' + " ".join(words) + '"'


def small_map(rand):
    """A map in EDN, and in JSON."""
    tags = rand.sample(TAGS, rand.randrange(0, 4))
    number, name = rand.randrange(100_000), rand.choice(NAMES)
    x, y = rand.randrange(-99, 100), rand.randrange(-99, 100)
    edn = [
        f":id {number}",
        f':name "{name}"',
        ":tags [" + " ".join(":" + tag for tag in tags) + "]",
        f":pos {{:x {x} :y {y}}}",
    ]
    json = [
        f'"id":{number}',
        f'"name":"{name}"',
        '"tags":[' + ",".join(f'"{tag}"' for tag in tags) + "]",
        f'"pos":{{"x":{x},"y":{y}}}',
    ]
    if rand.random() < 0.3:
        live = rand.randrange(3)
        edn.append(":live? " + ["true", "false", "nil"][live])
        json.append('"live?":' + ["true", "false", "null"][live])
    return "{" + ", ".join(edn) + "}", "{" + ",".join(json) + "}"


def nested_or_small(rand, levels, nested):
    """A further collection, where there are levels left, or an integer, in EDN and in JSON."""
    if levels > 1 and rand.random() < 0.4:
        return nested(rand, levels - 1)
    text = str(rand.randrange(100))
    return text, text


def nested_vector(rand, levels=4):
    """A vector of up to so many levels, in EDN and in JSON."""
    items = [nested_or_small(rand, levels, nested_vector) for _ in range(rand.randrange(5))]
    return "[" + " ".join(edn for edn, _ in items) + "]", "[" + ",".join(json for _, json in items) + "]"


def nested_map(rand, levels=4):
    """A map of up to so many levels, in EDN and in JSON."""
    keys = rand.sample(KEYS, rand.randrange(4))
    entries = [(key, *nested_or_small(rand, levels, nested_map)) for key in keys]
    edn = ", ".join(f":{key} {value}" for key, value, _ in entries)
    json = ",".join(f'"{key}":{value}' for key, _, value in entries)
    return "{" + edn + "}", "{" + json + "}"


def remark(rand):
    """An integer, with something before or behind it that is no data."""
    kind, n = rand.randrange(4), small(rand)
    words = " ".join(rand.choices(WORDS, k=rand.randrange(3, 12)))
    if kind == 0:
        return f"{n} ; {words}\n"
    if kind == 1:
        return f'#_[{n} "{words}"] {n}'
    if kind == 2:
        return f"#_ #_ {n} {{:a {n}}} {n}"
    return f"{n} #_{small_map(rand)[0]}"


def vector(rand, item, size):
    """A vector of at most this many bytes in EDN, and, where the items come in pairs, the same in JSON."""
    edn, json, total = [], [], 1
    while True:
        made = item(rand)
        text = made if isinstance(made, str) else made[0]
        total += len(text.encode()) + 1
        if total > size:
            break
        edn.append(text)
        json.append(made if isinstance(made, str) else made[1])
    return "[" + " ".join(edn) + "]", "[" + ",".join(json) + "]"


def keyword_map(members):
    rand = random.Random(2)
    pairs = [(n, rand.randrange(1000)) for n in rand.sample(range(1_000_000, 10_000_000), members)]
    edn = ", ".join(f":k{key} {value}" for key, value in pairs)
    json = ",".join(f'"k{key}":{value}' for key, value in pairs)
    return "{" + edn + "}", "{" + json + "}"


def integer_set(members):
    numbers = [str(n) for n in random.Random(4).sample(range(50 * members), members)]
    return "#{" + " ".join(numbers) + "}", "[" + ",".join(numbers) + "]"


def integer_row(members):
    edn, json = integer_set(members)
    return "[" + edn[2:-1] + "]", json


SHAPES = {
    "ints": lambda size, _: vector(random.Random(1), small, size),
    "map": lambda _, members: keyword_map(members),
    "set": lambda _, members: integer_set(members),
    "row": lambda _, members: integer_row(members),
    "maps": lambda size, _: vector(random.Random(5), small_map, size),
    "small-vectors": lambda size, _: vector(random.Random(8), nested_vector, size),
    "small-maps": lambda size, _: vector(random.Random(9), nested_map, size),
    "strings": lambda size, _: vector(random.Random(6), string, size),
    "remarks": lambda size, _: (vector(random.Random(7), remark, size)[0], None),
}


def generate(folder, shape, size=ALL_BYTES, members=ALL_MEMBERS):
    """Writes the shape's files, and returns the path of each (None where JSON has no such text)."""
    os.makedirs(folder, exist_ok=True)
    paths = []
    for kind, text in zip(("edn", "json"), SHAPES[shape](size, members)):
        path = f"{folder}/{shape}.{kind}" if text is not None else None
        if path:
            with open(path, "w", encoding="utf-8", newline="\n") as out:
                out.write(text)
        paths.append(path)
    return paths


def arguments(said):
    """Adds the shapes and their sizes to the arguments of a parser, and reads all of them. No shape means all."""
    said.add_argument("shapes", nargs="*", metavar="SHAPE", help=", ".join(SHAPES))
    said.add_argument("--bytes", type=int, default=ALL_BYTES)
    said.add_argument("--members", type=int, default=ALL_MEMBERS)
    given = said.parse_intermixed_args()
    for shape in given.shapes:
        if shape not in SHAPES:
            said.error(f"there is no shape {shape}")
    given.shapes = given.shapes or list(SHAPES)
    return given


if __name__ == "__main__":
    said = argparse.ArgumentParser(
        description=__doc__, formatter_class=argparse.RawDescriptionHelpFormatter
    )
    said.add_argument("folder")
    given = arguments(said)
    for shape in given.shapes:
        for path in generate(given.folder, shape, given.bytes, given.members):
            if path:
                print(f"{os.path.getsize(path):>10} {path}")
