#!/usr/bin/env python3
"""Puts wrong bodies under the contracts of crates, by `rt plant`, and tells which crates let one through.

usage: plant.py [NAME..] [--minutes N]

The named crates are planted one after the other, or all but those with tests alone, each for N minutes (5) after its check. What
`rt plant` says of a crate is kept in out/planted/NAME, and a crate whose file is there is not planted again. At the end there is a
table of all that are planted: functions; bodies that were refused, that the contract let through, that couldn't be judged, and for
which there was no time; functions without an ensures, and those under which no body could be judged. `rt plant` gives up a check
after four minutes by the clock, so it judges little on a machine that has other work."""

import re
import subprocess
import sys

from programs import TOP, parser_of

PLANTED = TOP / "out" / "planted"
TESTS_ALONE = re.compile(r"ab_rows|\w+_trials")
COLUMNS = {
    "planted-in": "functions",
    "refused": "refused",
    "proves": "let through",
    "not-judged": "not judged",
    "not-run": "no time",
    "no-ensures": "no ensures",
    "untested": "untested",
}


def crates():
    names = re.findall(r"^(\w+):", (TOP / "crates.txt").read_text(), re.MULTILINE)
    return [name for name in names if not TESTS_ALONE.fullmatch(name)]


def plant(name, minutes):
    """Plants a crate and keeps what `rt plant` says of it. Returns whether it came to its end."""
    kept = PLANTED / name
    if kept.exists():
        return True
    words = ["rt", "plant", "--jobs", "1", "--minutes", str(minutes)]
    done = subprocess.run(words, cwd=TOP / "crates" / name, capture_output=True, text=True)
    if done.returncode:
        print(f"{name}: not planted: {done.stderr.strip()[-300:]}", flush=True)
        return False
    kept.write_text(done.stdout)
    print(f"{name}: {done.stdout.splitlines()[-1]}", flush=True)
    return True


def tell(names):
    print(f"{'crate':20}" + "".join(f"{title:>13}" for title in COLUMNS.values()))
    for name in names:
        if (PLANTED / name).exists():
            counts = dict(re.findall(r"(\S+)=(\d+)", (PLANTED / name).read_text().splitlines()[-1]))
            print(f"{name:20}" + "".join(f"{counts[column]:>13}" for column in COLUMNS))


def main():
    parser = parser_of(__doc__)
    parser.add_argument("names", nargs="*")
    parser.add_argument("--minutes", type=int, default=5)
    asked = parser.parse_args()
    PLANTED.mkdir(parents=True, exist_ok=True)
    ended = [plant(name, asked.minutes) for name in asked.names or crates()]
    tell(crates())
    sys.exit(0 if all(ended) else 1)


if __name__ == "__main__":
    main()
