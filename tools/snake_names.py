#!/usr/bin/env python3
"""Respells this repository's own definitions, lemmas, record fields and local names as today's Rattle spells names.

usage: python3 tools/snake_names.py      at the top of the repository, once, right after /opt/rattle/port/port.py

A name with dashes gets underscores, and upper camel case where it is a type. Names of the library keep their dashes, and so do
the names that the checker makes, but for the part of such a name that is an identifier of the crate's source. Functions of src/,
strings, comments, inputs and outputs stay as they are.
"""

import os
import re

NAME = r"[A-Za-z_][A-Za-z_0-9']*(?:-[A-Za-z_0-9']+)+"
TOKEN = re.compile(r"(?<![A-Za-z_0-9'◌-])" + NAME + r"(?![A-Za-z_0-9'-])")
DEFINES = re.compile(r"\s*(?:abbrev |unfoldable |pub |record |data )*(" + NAME + r")(?: [({][^=]*)?\s+:(?: |$)")
USES = re.compile(r"\s*(?:ghost )?use ([^{}]+)\.\{(.*)\}")
COMMENT = re.compile(r"(?:(?<![^\s])--(?![-\w])|//).*")
# names that would fall together with another name of their file
APART = {"by-zero": "divides_by_zero", "bit-and": "bit_of_and", "bit-or": "bit_of_or"}
# local names
LOCAL = {
    "fresh-own", "opened-own", "b-is", "c-is", "d-is", "one-is", "comma-token", "plus-token", "number-token", "so-far",
    "three-registers", "two-registers", "one-register", "zero-divisor", "open-same", "words-rest",
}


def spelled(name):
    if name in APART:
        return APART[name]
    if name[0].isupper():
        return "".join(part[0].upper() + part[1:] for part in name.split("-"))
    return name.replace("-", "_")


def files():
    for folder, dirs, names in os.walk("crates"):
        dirs[:] = sorted(d for d in dirs if d != "out")
        for name in sorted(names):
            if name.endswith((".antt", ".rt")):
                yield os.path.join(folder, name)


def read(path):
    with open(path, encoding="utf-8") as f:
        return f.read()


def own_names():
    """The names that this repository defines, and not those that it takes from the library."""
    own, library = set(LOCAL), set()
    for path in files():
        for line in read(path).split("\n"):
            code = COMMENT.sub("", line)
            used = USES.match(code)
            if used and not re.match(r"Rattle\.(?!std\b|core\b)\w+", used.group(1)):
                library |= {part.split(" as ")[0].strip() for part in used.group(2).split(",")}
            defined = DEFINES.match(code)
            if defined and path.endswith(".antt") and ": goal." not in code:
                own.add(defined.group(1))
    return own - library


def sources(path):
    """The identifiers of the source of the crate that a file belongs to."""
    folder = os.path.join(*path.split(os.sep)[:2], "src")
    words = set()
    for name in sorted(os.listdir(folder)):
        for line in read(os.path.join(folder, name)).split("\n"):
            if not line.startswith("ghost use"):
                words |= set(re.findall(r"\w+", line))
    return words


def turned(text, own, source):
    def one(match):
        name = match.group(0)
        before = text_of_line[: match.start()]
        made = re.search(r"(?:\bc|\bl|\bgoal)\.(?:[\w'-]+\.)*$", before) and name.replace("-", "_") in source
        return spelled(name) if name in own or made else name

    out = []
    for line in text.split("\n"):
        comment = COMMENT.search(line)
        text_of_line = line[: comment.start()] if comment else line
        out.append(TOKEN.sub(one, text_of_line) + (line[comment.start():] if comment else ""))
    return "\n".join(out)


def main():
    own = own_names()
    known = {}
    for path in files():
        crate = path.split(os.sep)[1]
        if crate not in known:
            known[crate] = sources(path)
        text = read(path)
        new = turned(text, own, known[crate])
        if new != text:
            with open(path, "w", encoding="utf-8") as f:
                f.write(new)


main()
