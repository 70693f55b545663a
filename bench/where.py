#!/usr/bin/env python3
"""Tells which names of docs/WHERE.md aren't where the page says.

usage: where.py

A cell of its tables has links, or a dash. Each name in a link's words has to stand in the file to which the link leads, word by word.
A case and an edit are named by their files. What isn't so is told, and the status is then 1."""

import re
import sys

from programs import TOP, parser_of

PAGE = TOP / "docs" / "WHERE.md"
# A link's words, and the file to which it leads.
LINK = re.compile(r"\[([^]]*)\]\(([^)]+)\)")
# The endings of files that are looked into. Any other file is known by its name.
TEXTS = (".antt", ".md", ".py", ".rt")


def words_in(text):
    return set(re.findall(r"\w+", text))


def words_of(path):
    """The words that stand in a file, or in its name where that says what it is."""
    return words_in(path.read_text() if path.suffix in TEXTS else path.name)


def cells(text):
    """The cells of all rows, each with the topic of its row, which comes first."""
    for line in re.findall(r"^\| (.*) \|$", text, re.MULTILINE):
        topic, *others = line.split(" | ")
        if topic != "topic":
            yield from ((topic, cell) for cell in others)


def link_checks(words, path):
    """Whether the file of a link is there, and has each name."""
    file = PAGE.parent / path
    names = re.findall(r"`([^`]+)`", words)
    if not names or not file.is_file():
        yield path, "no name leads there" if file.is_file() else "there is no such file"
        return
    there = words_of(file)
    for name in names:
        missing = sorted(words_in(name) - there)
        yield f"{name} in {path}", f"it isn't there: {', '.join(missing)}" if missing else None


def checks():
    """Yields what is looked at, and what is wrong with it; None if nothing is."""
    text = PAGE.read_text()
    for topic, cell in cells(text):
        if LINK.sub("", cell).strip(" ,-"):
            yield f"docs/WHERE.md, {topic}", f"this cell has more than links: {cell}"
    for words, path in LINK.findall(text):
        for name, differs in link_checks(words, path):
            yield f"docs/WHERE.md, {name}", differs


def main():
    parser_of(__doc__).parse_args()
    wrong = [f"{name}: {differs}" for name, differs in checks() if differs]
    print("\n".join(wrong) or "each name is where the page says")
    sys.exit(1 if wrong else 0)


if __name__ == "__main__":
    main()
