#!/usr/bin/env python3
"""Whether crates.txt lists for each crate exactly those that its files name, and how much `rt` has to sum up.

`rt` tells whether a crate's library is up to date by a sum over its files and the sums of all that it lists, each made anew.
So a crate costs one sum, and those of all that it lists."""
import functools
import pathlib
import re

from extraction.running import run

TOP = pathlib.Path(__file__).resolve().parent.parent
MOST_CRATES, MOST_SUMS = 54, 3200


def listed():
    """The crates, each with those of the repository that it lists."""
    lines = [line.split(":") for line in (TOP / "crates.txt").read_text().splitlines() if line and not line.startswith("#")]
    names = {name.split()[0] for name, _ in lines}
    return {name.split()[0]: [other for other in others.split() if other in names] for name, others in lines}


def named(crate, crates):
    """The other crates that the files of a crate name."""
    files = [path for folder in ("src", "specs", "proofs") for path in (TOP / "crates" / crate / folder).rglob("*")
             if path.suffix in (".rt", ".antt")]
    words = {word for path in files for word in re.findall(r"\b(hz[a-z_]*)(?=::|\.)", path.read_text())}
    return words & set(crates) - {crate}


def main():
    crates = listed()

    @functools.lru_cache(None)
    def sums(crate):
        return 1 + sum(sums(other) for other in crates[crate])

    wrong = []
    for crate, others in crates.items():
        names = named(crate, crates)
        wrong += [f"{crate} names {other} and does not list it" for other in sorted(names - set(others))]
        wrong += [f"{crate} lists {other} and does not name it" for other in others if other not in names]
    if len(crates) > MOST_CRATES:
        wrong.append(f"there are more than {MOST_CRATES} crates")
    if sums("hz") > MOST_SUMS:
        wrong.append(f"hz has more than {MOST_SUMS} sums")
    print(*wrong, f"{len(crates)} crates, {sums('hz')} sums for hz", sep="\n")
    return 1 if wrong else 0


if __name__ == "__main__":
    run(main)
