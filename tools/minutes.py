#!/usr/bin/env python3
"""minutes.py: what the gate costs by crate, in minutes of a processor, for docs/MINUTES.md.

    minutes.py sample FILE     notes each second the processor time of each process of the prover below this folder, or below a folder of rt's
                               own in /tmp, until it is stopped; begin it before `RT_JOBS=4 .ci/run`, on a machine on which nothing is kept
    minutes.py table FILE..    prints the table of docs/MINUTES.md; of several files, which are of runs that were begun anew, the greatest
                               figure of each column counts

A process that begins and ends between two looks is not seen."""

import collections
import json
import os
import re
import sys
import time

TICKS = os.sysconf("SC_CLK_TCK")


def processes(top):
    """The processes of the prover at work here: number and start, words, the folder, and seconds of a processor so far."""
    for number in filter(str.isdigit, os.listdir("/proc")):
        try:
            with open(f"/proc/{number}/cmdline", "rb") as file:
                words = file.read().replace(b"\0", b" ").decode("utf-8", "replace").strip()
            place = os.readlink(f"/proc/{number}/cwd")
            with open(f"/proc/{number}/stat") as file:
                stat = file.read().rsplit(")", 1)[1].split()
        except OSError:
            continue
        if "--crate-name" in words and (place.startswith(top) or "/tmp/rt-" in place or "/tmp/rt-" in words):
            yield f"{number}.{stat[19]}", words, place, (int(stat[11]) + int(stat[12])) / TICKS


def sample(path):
    seen = {}
    while True:
        began = time.time()
        for key, words, place, seconds in processes(os.getcwd()):
            crate = re.search(r"--crate-name (\S+)", words).group(1)
            seen[key] = {"crate": crate, "column": column_of(words, place), "seconds": seconds}
        with open(path + ".new", "w") as file:
            json.dump(seen, file)
        os.replace(path + ".new", path)
        time.sleep(max(0.0, 1 - (time.time() - began)))


def column_of(words, place):
    """0 for the proof of a library, 1 for a program: its proof, the building of it and its runs; 2 for edits and the check before them,
    which `rt` checks in folders of its own."""
    if "/rt-edit" in place:
        return 2
    return 1 if "main.rt" in words or "--test" in words else 0


def sums(path):
    """Seconds by crate and column of one file."""
    found = collections.Counter()
    with open(path) as file:
        for one in json.load(file).values():
            found[one["crate"], one["column"]] += one["seconds"]
    return found


def crates():
    with open("crates.txt") as file:
        return [line.split(":")[0].strip() for line in file if ":" in line and not line.startswith("#")]


def lines_of(crate):
    """Lines of its src, specs and proofs."""
    count = 0
    for part in ("src", "specs", "proofs"):
        for folder, _, files in os.walk(f"crates/{crate}/{part}"):
            for name in files:
                with open(f"{folder}/{name}", "rb") as file:
                    count += sum(1 for _ in file)
    return count


def edits_of(crate):
    folder = f"crates/{crate}/must-fail"
    return sum(name.endswith(".edit") for name in os.listdir(folder)) if os.path.isdir(folder) else 0


def table(paths):
    most = collections.Counter()
    for path in paths:
        for key, seconds in sums(path).items():
            most[key] = max(most[key], seconds)
    print("|crate|lines|edits|proof|program|checks of edits|")
    print("|---|---|---|---|---|---|")
    whole, small, count = [0, 0, 0.0, 0.0, 0.0], [0, 0, 0.0, 0.0, 0.0], 0
    for crate in crates():
        row = [lines_of(crate), edits_of(crate)] + [most[crate, column] / 60 for column in range(3)]
        whole = [a + b for a, b in zip(whole, row)]
        if sum(row[2:]) < 1:
            small, count = [a + b for a, b in zip(small, row)], count + 1
        else:
            print(row_of(f"`{crate}`", row))
    print(row_of(f"{count} others, each below one", small))
    print(row_of("all", whole))


def row_of(name, row):
    """A row of the table."""
    return f"|{name}|{row[0]:,}|{row[1] or ''}|" + "|".join(f"{one:.1f}" if one >= 0.05 else "" for one in row[2:]) + "|"


if len(sys.argv) == 3 and sys.argv[1] == "sample":
    sample(sys.argv[2])
elif len(sys.argv) > 2 and sys.argv[1] == "table":
    table(sys.argv[2:])
else:
    sys.exit(__doc__)
