#!/usr/bin/env python3
"""Puts wrong bodies into a copy of the repository, one after the other, and runs rows on what it then does until one refuses it.

usage: wrong_bodies.py [NAME..]

A body is a file of bench/wrong_bodies/: what it does; the file that it changes; and either a function and what its body then does first
(`in`, `first`), or a text and what then stands in its place (`old`, `new`). The copy is built and run unproved, by `rt try`, so only
rows are run that take it seconds: words, and schedules of up to 1,000 bytes. A row that isn't answered in time refuses nothing. Prints
a table of the bodies, each with the first row that refuses it, and ends with 1 if one passes all rows. A body takes some two minutes."""

import pathlib
import re
import shutil
import subprocess
import sys
import tempfile

from programs import TOP, end_in_order, parser_of
from rows import cases

BODIES = pathlib.Path(__file__).resolve().with_suffix("")
GROUPS = ("words", "texts", "hostile", "runs", "storms")
LONGEST = 1000


def quick_cases():
    """The rows that are run, under names of their own."""
    found = cases()
    for case in (case for group in GROUPS for case in found[group]):
        words = case.words()
        many = case.group == "storms" and int(words[-1]) > 20
        if words[0] == "abstract_bft" and len(case.given()) <= LONGEST and not case.part("sched.gz") and not many:
            yield f"{case.group}-{case.name}", case


def write_cases(folder, chosen):
    """Writes rows as `rt try --cases` reads them."""
    folder.mkdir()
    for name, case in chosen.items():
        (folder / name).write_bytes(case.given())
        (folder / f"{name}.stdout").write_bytes(case.wanted()[1])
        words = "".join(f"{word}\n" for word in case.words()[1:])
        (folder / f"{name}.args").write_text(words, "utf-8", "surrogateescape")


def read_body(path):
    """What a body does, and the fields of its file."""
    title, *lines = path.read_text().splitlines()
    return title, dict(line.split(": ", 1) for line in lines)


def put(text, body):
    """The text of a source with a body put in."""
    if "old" in body:
        before, after = text.split(body["old"])
        return before + body["new"] + after
    before, after = text.split(body["in"])
    opening = re.search(r"\n *\{\n", after)
    return before + body["in"] + after[: opening.end()] + body["first"] + "\n" + after[opening.end() :]


def first_refusal(crates, folder, chosen):
    """Builds the program of these crates and runs the rows, until one refuses it. None if they all pass."""
    told = []
    words = ["rt", "try", "--cases", str(folder)]
    with subprocess.Popen(words, cwd=crates / "abstract_bft", stdout=subprocess.DEVNULL, stderr=subprocess.PIPE, text=True) as run:
        for line in run.stderr:
            told.append(line)
            ended = dict(it.split("=", 1) for it in line.split() if "=" in it)
            if line.startswith("case=") and refuses(chosen[ended["case"]], ended):
                run.terminate()
                return ended["case"].replace("-", "/", 1)
    if not any(line.startswith("cases=") for line in told):
        sys.exit("wrong_bodies: it doesn't build:\n" + "".join(told[-20:]))
    return None


def refuses(case, ended):
    """Whether a row ended, and otherwise than it has to."""
    wanted = {"status": str(case.wanted()[0]), "output": "expected"}
    return ended["run"] == "ended" and any(ended.get(key) != it for key, it in wanted.items())


def copied(path, room):
    """A copy of the crates with a body put in: what the body does, and the folder of the copy."""
    copy = room / path.stem
    shutil.copytree(TOP / "crates", copy / "crates", ignore=shutil.ignore_patterns("out", "proofs", "must-fail"))
    shutil.copy(TOP / "crates.txt", copy)
    title, body = read_body(path)
    source = copy / body["file"]
    source.write_text(put(source.read_text(), body))
    return title, copy


def main():
    parser = parser_of(__doc__)
    parser.add_argument("names", nargs="*")
    names = parser.parse_args().names
    paths = [BODIES / f"{name}.body" for name in names] or sorted(BODIES.glob("*.body"))
    chosen, passed = dict(quick_cases()), 0
    end_in_order()
    with tempfile.TemporaryDirectory() as folder:
        room = pathlib.Path(folder)
        write_cases(room / "cases", chosen)
        for path in paths:
            title, copy = copied(path, room)
            refused = first_refusal(copy / "crates", room / "cases", chosen)
            passed += refused is None
            print(f"| {title} | {f'`{refused}`' if refused else 'none'} |", flush=True)
            shutil.rmtree(copy)
    sys.exit(1 if passed else 0)


if __name__ == "__main__":
    main()
