#!/usr/bin/env python3
"""Extracts each pipeline of GCC's back ends as it is, with --align, and with --align and --split, gives all to hz, and prints a table of
the answers.

What compiles is compared by hz_same, or, where that is not built, by a search over all pairs of states in Python: the aligned one with the
one as it is, and the cut one with the aligned one. If only the aligned one compiles, drills of both treatments on its tables are compared
with a calendar of the other. So it is where only the cut one compiles, or where too many pairs would be needed. Mutants of all are extracted
too. The machine descriptions are those of Debian's package gcc-12-source, unpacked into a folder that is removed, or those of a folder
with GCC's source. Then check_built.py compares what genautomata writes of them.

Each run of hz may have 6 GB of addresses. A proved program needs far less; one that is built to be tried without a proof reserves more
than that, and can't start.
"""
import argparse
import collections
import copy
import glob
import os
import resource
import subprocess
import tarfile
import tempfile

import check_built
from building.comparing import comparer_of
from extract import Reader, extract
from fuzz_extract import fuzz
from extraction.calendars import Calendars
from extraction.forms import Fault
from extraction.items import Class, Options, Reservation, Units
from extraction.running import run
from extraction.same import Undecided
from extraction.shared import needed
from extraction.tables import Tables, is_count
from extraction.writing import written

SOURCES = "/usr/src/gcc-12/gcc-12*.tar.xz"
MEMORY = 6 << 30
NUMBER, TURNS = 59, 2000

Answer = collections.namedtuple("Answer", "status reported seconds states grids size text")
Programs = collections.namedtuple("Programs", "hz comparer")
Row = collections.namedtuple("Row", "target name classes plain aligned agreement changes cut cut_agreement cut_changes")


def spent():
    """Seconds of a processor that ended programs took."""
    usage = resource.getrusage(resource.RUSAGE_CHILDREN)
    return usage.ru_utime + usage.ru_stime


def limit_memory():
    resource.setrlimit(resource.RLIMIT_AS, (MEMORY, MEMORY))


def compiled(hz, items, most):
    """What hz answers to items, and after how many seconds; `most` is how many it may take."""
    with tempfile.NamedTemporaryFile("w", suffix=".md", encoding="latin-1") as out, tempfile.TemporaryFile() as answer:
        out.write(written(items, []))
        out.flush()
        began = spent()
        try:
            status = subprocess.run([hz, "compile", out.name], stdout=answer, stderr=answer, timeout=most,
                                    preexec_fn=limit_memory).returncode
        except subprocess.TimeoutExpired:
            return unanswered(f"none in {most} seconds")
        seconds = spent() - began
        answer.seek(0)
        text = answer.read().decode("latin-1")
        if status == 0:
            tables = Tables(text)
            return Answer(status, "compiled", seconds, tables.states(), tables.grids(), len(text), text)
        return Answer(status, text.split("\n")[0].replace(f" {out.name}", ""), seconds, 0, 0, 0, text)


def unanswered(why):
    return Answer(None, why, 0, 0, 0, 0, "")


def sizes(answer):
    """States of all automata, and grids before minimisation."""
    return f"{answer.states} of {answer.grids} grids" if answer.status == 0 else "-"


def unpack(source, folder):
    """The directory of the back ends of a GCC source; of a tar file the machine descriptions alone are unpacked."""
    if os.path.isdir(source):
        return os.path.join(source, "gcc", "config")
    with tarfile.open(source) as archive:
        for member in archive:
            parts = member.name.split("/")
            if member.isfile() and parts[1:3] == ["gcc", "config"] and member.name.endswith(".md"):
                archive.extract(member, folder)
    return glob.glob(os.path.join(folder, "*", "gcc", "config"))[0]


def main_files(config):
    """The main machine description of each back end."""
    folders = sorted(os.path.basename(folder) for folder in glob.glob(os.path.join(config, "*")))
    mains = [os.path.join(folder, folder + ".md") for folder in folders]
    return [main for main in mains if os.path.exists(os.path.join(config, main))]


def drawn_from(own, shared):
    """The files from which items take units and reservations."""
    return {item.place.file for item in needed(own, shared) if isinstance(item, (Units, Reservation))}


def pipelines(reader, main):
    """The files of each pipeline of a target: those with classes, joined if one takes units from another."""
    files = collections.defaultdict(list)
    for item in reader.items(main, True):
        files[item.place.file].append(item)
    groups = {file: {file} for file, items in files.items() if has_classes(items)}
    for file in list(groups):
        shared = [item for other, items in files.items() if other != file for item in items]
        for other in drawn_from(files[file], shared) & set(groups) - {main}:
            joined = groups[file] | groups[other]
            groups.update({member: joined for member in joined})
    order = list(files)
    return sorted({tuple(sorted(group, key=order.index)) for group in groups.values()}) + left_out(reader, main, files)


def has_classes(items):
    return any(isinstance(item, Class) for item in items)


def left_out(reader, main, files):
    """The files of a pipeline that the target's main file does not include."""
    beside = sorted(glob.glob(os.path.join(os.path.dirname(main), "*.md")))
    return [(file,) for file in beside if file not in files and has_classes(reader.items(file, False))]


def with_option(items, name, given):
    """A copy of items with or without an option; under `ndfa` query units are units."""
    made = copy.deepcopy(items)
    for item in made:
        if isinstance(item, Options):
            item.names = [other for other in item.names if other != name]
        if isinstance(item, Units) and name == "ndfa" and given:
            item.query = False
    kept = [item for item in made if not isinstance(item, Options) or item.names]
    return kept + [Options(items[0].place, [name])] if given else kept


def drawn(number, classes):
    """The class that a number draws."""
    return number // 65536 % classes


def drills_agree(hz, plain, aligned, is_any, most):
    """Whether the tables of aligned items and the calendars of plain ones answer each turn of a drill in the same way, and hold the same
    query units after it."""
    answer = compiled(hz, with_option(aligned, "ndfa", is_any), most)
    if answer.status != 0:
        return kind_of(answer)
    tables, calendars, number = Tables(answer.text), Calendars(plain, is_any), NUMBER
    counts = collections.Counter()
    for turn in range(TURNS):
        number = (number * 1103515245 + 12345) % 2147483648
        place = drawn(number, len(calendars.classes))
        accepted = calendars.issue(place)
        if accepted is None:
            return f"{turn} turns"
        if accepted != tables.issue(place) or any(calendars.holds(unit) != held for unit, held in tables.held().items()):
            return f"DIFFERS at turn {turn}"
        counts[accepted] += 1
        if not accepted:
            calendars.advance()
            tables.advance()
    return f"{counts[True]} accepted, {counts[False]} refused"


def drills(hz, plain, aligned, most):
    """How drills of both treatments agree."""
    return "; ".join(f"{'ndfa' if is_any else 'first'}: {drills_agree(hz, plain, aligned, is_any, most)}" for is_any in (False, True))


def compared(comparer, before, after):
    """Whether two answers that compile are the same, or how they differ."""
    texts = ["\n".join(line for line in answer.text.split("\n") if not is_count(line)) for answer in (before, after)]
    if texts[0] == texts[1]:
        return "the same tables"
    found = comparer.reported(before.text, after.text)
    return f"DIFFERS: {'; '.join(found.trace)}: {found.answers[0]}, {found.answers[1]}" if found else "the same"


def agreement(programs, plain, aligned, answers, most):
    """How two ways were compared: by their tables, or by drills if the first is not compiled, or has too many pairs of states."""
    before, after = answers
    if after.status != 0:
        return "" if before.reported == after.reported else "no longer compiled: DIFFERS" if before.status == 0 else "another answer"
    if before.status != 0:
        return drills(programs.hz, plain, aligned, most)
    try:
        return compared(programs.comparer, before, after)
    except Undecided as undecided:
        return f"{undecided}; {drills(programs.hz, plain, aligned, most)}"


def row(programs, reader, target, name, most, **what):
    """One row of the table: a pipeline or a whole target, with or without --merge."""
    try:
        plain, _ = extract(reader, **what)
        aligned, reported = extract(reader, align=True, **what)
        cut, cut_reported = extract(reader, align=True, split="paying", **what)
    except Fault as fault:
        return unread(target, name, fault)
    answers = [compiled(programs.hz, with_option(items, "stats", True), most) for items in (plain, aligned, cut)]
    agreed = agreement(programs, plain, aligned, answers[:2], most)
    cut_same = agreement(programs, plain, cut, answers[1:], most)
    short = [answer._replace(text="") for answer in answers]
    classes = sum(isinstance(item, Class) for item in plain)
    kinds = [[change.kind for change in made] for made in (reported, cut_reported)]
    return Row(target, name, classes, *short[:2], agreed, kinds[0], short[2], cut_same, kinds[1])


def unread(target, name, fault):
    """The row of what can't be read."""
    return Row(target, name, 0, *[unanswered(f"not read: {fault}")] * 2, "", [], unanswered(""), "", [])


def rows(programs, config, only, most):
    """The rows of all back ends, each printed as it comes."""
    os.chdir(config)
    for main in main_files(config):
        target, reader = os.path.dirname(main), Reader()
        if only and target not in only:
            continue
        try:
            found = pipelines(reader, main)
        except Fault as fault:
            yield unread(target, target, fault)
            continue
        tries = [(" ".join(files), {"files": list(files), "defs": [main]}) for files in found]
        if len(found) > 1:
            tries.append((f"all of {target}", {"files": [], "targets": [main]}))
        for name, what in tries:
            first = row(programs, reader, target, name, most, **what)
            yield first
            if "AlternationOfTwo" in first.plain.reported:
                yield row(programs, reader, target, name + " --merge", most, merge=True, **what)


def spelled(kinds):
    return ", ".join(f"{count} {kind}" for kind, count in sorted(collections.Counter(kinds).items()))


def kind_of(answer):
    """What an answer counts as."""
    words = answer.reported.split()
    if answer.status == 0:
        return "compiled"
    if answer.status == 2:
        return "fault " + words[3]
    if answer.status == 3:
        return "limit " + (words[3] if words[1] == "line" else "of states")
    return answer.reported


def line_of(one):
    return " | ".join([one.name, str(one.classes), one.plain.reported, f"{one.plain.seconds:.2f}", sizes(one.plain),
                       one.aligned.reported, f"{one.aligned.seconds:.2f}", sizes(one.aligned), one.agreement, spelled(one.changes),
                       one.cut.reported, f"{one.cut.seconds:.2f}", sizes(one.cut), one.cut_agreement, spelled(one.cut_changes),
                       f"{one.aligned.size} {one.cut.size}"])


def summary(title, found):
    print(f"\n{title}: {len(found)}")
    for way in ("plain", "aligned", "cut"):
        answers = [getattr(one, way) for one in found]
        counts = collections.Counter(kind_of(answer) for answer in answers)
        print(f"  {way}: " + ", ".join(f"{count} {kind}" for kind, count in counts.most_common()))
        for one in sorted(found, key=lambda one: -getattr(one, way).seconds)[:3]:
            answer = getattr(one, way)
            print(f"    {answer.seconds:.2f} s {one.name}: {answer.reported}, {sizes(answer)}")
    for way in ("agreement", "cut_agreement"):
        reported = [getattr(one, way) for one in found]
        print(f"  {way.replace('_', ' ')}: {reported.count('the same tables')} the same tables, {reported.count('the same')} the same otherwise, "
              f"{sum('accepted' in one for one in reported)} drills")
    print(f"  changes: {spelled(kind for one in found for kind in one.changes)}")
    print(f"  changes with the cut: {spelled(kind for one in found for kind in one.cut_changes)}")


def better(first, second):
    """Of a pipeline without and with --merge, what compiles aligned."""
    return first if first.aligned.status == 0 else second


def is_one(one):
    """Whether a row is of one pipeline, without --merge."""
    return not one.name.startswith("all of ") and not one.name.endswith(" --merge")


def by_target(found):
    """The table of docs/GCC.md: of each target how many pipelines compile, and the one with the most grids, aligned."""
    targets = collections.defaultdict(dict)
    for one in found:
        if not one.name.startswith("all of "):
            own, name = targets[one.target], one.name.replace(" --merge", "")
            own[name] = better(own.get(name, one), one)
    print("\n| target | pipelines | compiled | with `--align` | the largest | its grids | its states | seconds |")
    print("|---|---|---|---|---|---|---|---|")
    for target, own in sorted(targets.items()):
        plain = sum(one.target == target and is_one(one) and one.plain.status == 0 for one in found)
        aligned = [one for one in own.values() if one.aligned.status == 0]
        if not aligned:
            print(f"| `{target}` | {len(own)} | {plain} | 0 | | | | |")
            continue
        largest = max(aligned, key=lambda one: one.aligned.grids)
        print(f"| `{target}` | {len(own)} | {plain} | {len(aligned)} | {short(largest.name)} | {largest.aligned.grids:,} "
              f"| {largest.aligned.states:,} | {largest.aligned.seconds:.2f} |")


def by_cut(found):
    """The table of docs/GCC.md with the sums of each target over its pipelines that compile aligned: before and after the cut."""
    targets = collections.defaultdict(dict)
    for one in found:
        if not one.name.startswith("all of "):
            own, name = targets[one.target], one.name.replace(" --merge", "")
            own[name] = better(own.get(name, one), one)
    print("\n| target | pipelines | compiled | states | cut | bytes of tables | cut | seconds | cut |")
    print("|---|---|---|---|---|---|---|---|---|")
    for target, own in sorted(targets.items()):
        both = [one for one in own.values() if one.aligned.status == one.cut.status == 0]
        sums = [sum(getattr(getattr(one, way), what) for one in both) for what in ("states", "size", "seconds") for way in ("aligned", "cut")]
        print(f"| `{target}` | {len(own)} | {sum(one.cut.status == 0 for one in own.values())} | " + " | ".join(f"{made:,}" for made in sums[:4]) +
              f" | {sums[4]:.2f} | {sums[5]:.2f} |")


def short(name):
    """The first file of a pipeline, without its folder and its ending, and the option that it took."""
    words = name.split()
    return f"`{os.path.basename(words[0])[:-3]}`" + (" with `--merge`" if words[-1] == "--merge" else "")


def words():
    parser = argparse.ArgumentParser(prog="check_gcc.py", description=__doc__)
    parser.add_argument("--source", default=SOURCES, help="a GCC source, a tar file or a folder; if it is not given, " + SOURCES)
    parser.add_argument("--seconds", type=int, default=300, help="how long hz may take for one description")
    parser.add_argument("--same", metavar="HZ_SAME", help="the program hz_same; if it is not given, hz_same beside hz, if that is there")
    parser.add_argument("--mutants", type=int, default=10000, help="how many mutated descriptions are extracted; 10000 if it is not given; a fifth as many texts of genautomata")
    parser.add_argument("hz")
    parser.add_argument("targets", nargs="*", help="back ends; all if none is named")
    return parser.parse_args()


def main():
    given = words()
    sources = glob.glob(given.source)
    if not sources:
        print(f"check-gcc: no {given.source}; Debian's package gcc-12-source has it")
        return 0
    hz, found = os.path.abspath(given.hz), []
    programs = Programs(hz, comparer_of(hz, given.same))
    print("pipeline | classes | answer | seconds | states | aligned | seconds | states | compared | changes | "
          "cut | seconds | states | compared | changes | bytes")
    source = os.path.abspath(sources[0])
    with tempfile.TemporaryDirectory() as folder:
        config = os.path.abspath(unpack(source, folder))
        for one in rows(programs, config, given.targets, given.seconds):
            print(line_of(one), flush=True)
            found.append(one)
        unexplained = check_built.check_source(hz, source, programs.comparer, config, given.targets, mutants=given.mutants // 5)
        os.chdir("/")
        odd = fuzz(hz, config, 1, given.mutants)
    merged = [one for one in found if one.name.endswith("--merge")]
    whole = [one for one in found if one.name.startswith("all of") and one not in merged]
    summary("pipelines", [one for one in found if one not in merged + whole])
    summary("whole targets", whole)
    summary("the same, merged", merged)
    by_target(found)
    by_cut(found)
    wrong = [one for one in found if "DIFFERS" in one.agreement + one.cut_agreement]
    print(f"\ncheck-gcc: {len(wrong)} differ, {unexplained} automata of builds")
    return 1 if wrong or odd or unexplained else 0


if __name__ == "__main__":
    run(main)
