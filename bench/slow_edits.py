#!/usr/bin/env python3
"""Tries the must-fail edits that the gate leaves out, beside those that it tries, one crate after the other.

usage: slow_edits.py [NAME..]

`rt must-fail` tries what stands in a crate's must-fail/. So the edits of slow-edits/ of each named crate, or of all crates, are copied
there, and removed when the crate is done or the script is ended. It ends with 1 if an edit isn't refused."""

import contextlib
import shutil
import sys

from programs import TOP, end_in_order, parser_of, run_tool

EDITS = TOP / "slow-edits"


@contextlib.contextmanager
def beside(name):
    """Has the slow edits of a crate stand beside those that the gate tries."""
    folder = TOP / "crates" / name / "must-fail"
    copies = {folder / path.name: path for path in sorted((EDITS / name).glob("*.edit"))}
    both = [copy.name for copy in copies if copy.exists()]
    if both:
        sys.exit(f"{name}: edits of must-fail/ and of slow-edits/: {', '.join(both)}")
    try:
        folder.mkdir(exist_ok=True)
        for copy, path in copies.items():
            shutil.copy(path, copy)
        yield
    finally:
        for copy in copies:
            copy.unlink(missing_ok=True)
        if folder.exists() and not any(folder.iterdir()):
            folder.rmdir()


def main():
    parser = parser_of(__doc__)
    parser.add_argument("names", nargs="*")
    names = parser.parse_args().names or sorted(path.name for path in EDITS.iterdir())
    missing = [name for name in names if not (EDITS / name).is_dir()]
    if missing:
        sys.exit(f"no slow edits of {', '.join(missing)}")
    end_in_order()
    statuses = []
    for name in names:
        with beside(name):
            statuses.append(run_tool(["rt", "must-fail", name], TOP))
    sys.exit(1 if any(statuses) else 0)


if __name__ == "__main__":
    main()
