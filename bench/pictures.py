#!/usr/bin/env python3
"""Compares the stored pictures of examples/ with those that the program draws today.

usage: pictures.py [make]

Tells which differ, and ends with 1 if one does. With the word `make` it draws each of them anew instead."""

import os
import sys

from programs import TOP, end_in_order, need, parser_of, path_of, ran


def drawn(picture):
    """The picture of its schedule today."""
    status, drawing, said = ran([], picture.with_suffix(".sched").read_bytes(), program=path_of("draw"))
    if status:
        sys.exit(f"{picture.name}: status {status} of draw: {said.decode().strip()}")
    return drawing


def replace(picture, drawing):
    """Puts a picture in place of the stored one, at once."""
    new = picture.with_suffix(".new")
    try:
        new.write_bytes(drawing)
        os.replace(new, picture)
    finally:
        new.unlink(missing_ok=True)


def main():
    parser = parser_of(__doc__)
    parser.add_argument("make", nargs="?", choices=["make"])
    make = parser.parse_args().make
    need("draw")
    end_in_order()
    differ = 0
    for picture in sorted((TOP / "examples").rglob("*.svg")):
        drawing = drawn(picture)
        if make:
            replace(picture, drawing)
        elif drawing != picture.read_bytes():
            differ += 1
            print(f"{picture.name} differs")
    sys.exit(1 if differ else 0)


if __name__ == "__main__":
    main()
