#!/usr/bin/env python3
"""Writes docs/THEOREM.md: the clauses of both calls `run` in plain words, and under each the definitions that a reader must believe.

It reads the sources, and of RULES.md and GUARANTEES.md which laws they name. It proves nothing. A name that it cannot follow ends it with
status 2, and so does a clause of `run` without a sentence here, or a sentence without its clause."""
import argparse
import collections
import os
import re
import sys

from extraction.running import run
from contracts.naming import case_citations, citations, function_clauses, laws_of, reach
from contracts.screen import command_lists, first_screen, names_in_code, names_of, place_in
from contracts.sources import Definition, Library, TOP, Unreadable

PAGE = "docs/THEOREM.md"
PAGES_OF_LAWS = ("docs/RULES.md", "docs/GUARANTEES.md")
RUN = ("crates/hz_tool/src/top.rt", "run")
WHY = ("crates/hz_explain/src/top.rt", "run")
ANSWERS = "Rattle.hz_answer_model.specs.Answers"
PHASES = "Rattle.hz_front_model.specs.Phases"
COMMANDS = ("compile", "replay", "walk", "schedule", "eval", "drill", "timed", "bound", "duo", "modulo")

# What `run` asks of its caller, in plain words.
REQUIRED = {
    "files": "The count of failed reads has room to rise by one.",
    "out": "So has the count of failed writes.",
}

# The clauses of `run` in plain words, in the order of the page.
ENSURED = {
    "exact": "This is the main clause. By the rules, the words and what the files hold have an answer: a status and a text. `run` gives this"
             " status, or 5 for want of memory. The clause applies if the files are known, no write failed, and either no read failed or the"
             " files are steady: of these only the opening of a name that is not there fails. Laws say that there is exactly one answer"
             " (`some_answer`, `one_answer`).",
    "complete": "Under the same premises, the status and what is written are that answer, or the status is 5.",
    "range": "The status is a number from 0 to 7.",
    "sink": "The status is 7 exactly if a write failed.",
    "file": "The status is 6 exactly if a read failed and no write did.",
    "lacks": "If only the opening of a name that is not there can fail, and a read failed, then the answer by the rules is status 6."
             " So if all files are there, none is reported as missing.",
    "rises": "The count of failed reads never falls.",
    "fails": "The count of failed writes never falls.",
    "words": "The status is 4 only if the words are no command.",
    "usage_or_memory": "If the words are no command and no write failed, the status is 4, or 5 for want of memory.",
    "usage": "With status 4 the usage line is written, and nothing else.",
    "memory": "With status 5 the line `memory` is written, and nothing else.",
    "file_line": "With status 6 one line is written. It names a file of the command.",
    "cut": "With status 7 only the front of a text is written, and the whole text is longer than the room for it. The text is an answer by"
           " the rules, the line `memory`, or after a failed read the line of a file.",
    "neither": "The status is at most 5 if only the opening of a name that is not there can fail, each file that the words name is there, and"
               " the sink has room for each answer and for the line `memory`. So these files and this sink never fail.",
    "promised": "With status 0 what is written keeps what is promised of the command (`Promised`, by its cases). [GUARANTEES.md](GUARANTEES.md),"
                " 'What status 0 also promises', has each case in plain words. Of `replay`, `walk` and `eval` nothing more is promised than the"
                " answer.",
}

# The clauses of `run` of `hz_why` that say something else than those of `hz` of the same name, and the one that `hz` has not.
WHY_ENSURED = {
    name: ENSURED[name] for name in ("exact", "complete", "range", "sink", "file", "lacks", "rises", "fails")
} | {
    "words": "The status is 4 only if the words are not two names of files.",
    "no_files": "If the words are not two names of files and no write failed, the status is 4.",
} | {
    name: ENSURED[name] for name in ("usage", "memory", "file_line", "cut", "neither")
} | {
    "exact": "This is the main clause. By the rules, the words and what the files hold have at most one answer (law `one_explanation`): what"
             " `replay` answers, and after it why the first issue that does not fit is refused, or what the events leave. If there is one,"
             " `run` gives its status, or 5 for want of memory. The clause applies if the files are known, no write failed, and either no"
             " read failed or the files are steady.",
    "file_line": "With status 6 one line is written. It names one of the two files.",
}

INTRODUCTION = """## How to read this page

`python3 tools/theorem.py` makes this page from the sources, and the gate compares it. Do not edit it.

`hz` calls one function, `run`; `hz_why` calls another of that name. Its contract is all that is promised of the program. The toolchain
checks that the code keeps the contract, so nobody needs to read code or proofs. You judge whether the contract says the right thing:

1. read the clauses of `run`, each in plain words and as the source has it;
2. read the definitions that a clause names, those that these name, and so on. Each is listed once, under the first clause that needs it.

Read a list from left to right: what is used comes before what uses it. Hold each definition against [RULES.md](RULES.md) and
[FORMATS.md](FORMATS.md); [GLOSSARY.md](GLOSSARY.md) has the words. A list has files by their crates, in `specs` or `src`. If a file has no
names, all its definitions are needed but those that another list or the section 'Definitions that no clause reaches' names. Lines are
counted without comments and empty lines. A clause without a list needs only definitions that are listed above it."""

SIGNS = """## The words of a clause

| in a clause | means |
|---|---|
| `→`, `×`, `⊎`, `↔`, `≡` | if .. then, and, or, exactly if, equals |
| `(x : A) → P`, `(x : A) × P` | P for every x, P for some x |
| `.old`, `.new`, `result` | before the call, after it, and the status that it gives |
| `F.held` | what the files hold: for each name its bytes, or none |
| `F.steady` | only the opening of a name that is not held can fail |
| `F.faults`, `S.faults` | how many reads and how many writes failed so far; an opening counts as a read |
| `S.written`, `S.room` | what was written so far, and how many bytes still fit |
| `ForSome v (λ x. P)` | P of x, if v is known to be x; nothing otherwise |
| `Answer words held status text` | by the rules, these words over these files have this status and this text |
| `WhyAnswer words held status text` | the same of `hz_why` |

Files in memory are known: contracts have what they hold. A clause that begins with `ForSome (F.held ..)` is about known files, and what is
written is said of known sinks. The host's files and standard output are not known: no contract can have their bytes. `run` is the same code
for every kind of files and sinks; [GUARANTEES.md](GUARANTEES.md) says what is proved of it over the host's."""

UNREACHED = """Nobody must believe these to believe `hz` or `hz_why`. They are words of laws, and words to prove with."""


class Contract:
    """The clauses of a function with their sentences, and what each needs."""

    def __init__(self, library, place, ensured):
        self.place, self.ensured = place, ensured
        clauses = function_clauses(library, *place)
        self.asked = self.named(clauses, "requires", REQUIRED)
        self.promised = self.named(clauses, "ensures", ensured)
        self.needs = {name: reach(library, self.promised[name].cited) for name in ensured}
        self.all = set().union(*(items for items, _ in self.needs.values()))

    @staticmethod
    def named(clauses, word, sentences):
        """The clauses of a kind by their names, which are those that have sentences."""
        found = {clause.name: clause for clause in clauses if clause.word == word}
        for name in found:
            if name not in sentences:
                raise Unreadable(f"the clause `{name}` of run has no sentence in tools/theorem.py")
        for name in sentences:
            if name not in found:
                raise Unreadable(f"the sentence of `{name}` in tools/theorem.py is of no clause of run")
        return found


class Theorem:
    """Both contracts of `run`, and what they need."""

    def __init__(self):
        self.library = Library()
        self.run = Contract(self.library, RUN, ENSURED)
        self.why = Contract(self.library, WHY, WHY_ENSURED)
        self.all = self.run.all | self.why.all
        self.models = [crate for crate in self.library.crates if crate.endswith(("_model", "_laws"))]
        self.laws = laws_of(self.library, self.models)
        self.order = self.order_of_files()
        self.reached = {name: reach(self.library, roots_of(self.library, name))[0] for name in COMMANDS}

    def order_of_files(self):
        """The files that are reached: crate by crate, and before each file those that it uses."""
        uses = collections.defaultdict(set)
        for item in self.all:
            uses[item.source.path].update(cited.source.path for cited in citations(self.library, item) if isinstance(cited, Definition))
        paths = [path for crate in self.library.crates for folder, ending in (("specs", ".antt"), ("src", ".rt"))
                 for path in self.library.files(crate, folder, ending)]
        rank = {path: place for place, path in enumerate(paths)}
        order, seen = [], set()

        def visit(path):
            if path not in seen:
                seen.add(path)
                for used in sorted(uses[path], key=rank.get):
                    visit(used)
                order.append(path)

        for path in sorted(uses, key=rank.get):
            visit(path)
        return order

    def model_files(self):
        """The files of definitions of the crates of definitions and laws."""
        paths = [path for crate in self.models for path in self.library.files(crate, "specs", ".antt")]
        return [source for source in map(self.library.source, paths) if source.definitions]


def size(items):
    """How many definitions, lines and files."""
    lines = set().union(*(item.to_read() for item in items)) if items else set()
    return len(items), len(lines), len({item.source.path for item in items})


def in_words(counts):
    """Definitions, lines and files in words."""
    parts = [f"{number:,} {word}{'' if number == 1 else 's'}" for number, word in zip(counts, ("definition", "line", "file"))]
    return ", ".join(parts)


def crate_of(path):
    """The crate of a file."""
    return path.split("/")[1]


def link(path):
    """A file in code."""
    return f"`{place_in(path)}`"


def table(head, rows):
    """A table of Markdown."""
    return ["| " + " | ".join(head) + " |", "|" + "---|" * len(head)] + ["| " + " | ".join(map(str, row)) + " |" for row in rows]


def chosen_of(items):
    """Nothing for all definitions of a file; else their names."""
    return "" if len(items) == len(getattr(items[0].source, "definitions", items)) else f" ({names_of(items)})"


def by_file(items):
    """Definitions by their files."""
    files = collections.defaultdict(list)
    for item in items:
        files[item.source.path].append(item)
    return files


def listed(theorem, items):
    """Definitions by crate and file, in the order of reading."""
    files, found = by_file(items), collections.OrderedDict()
    for path in theorem.order:
        if path in files:
            found.setdefault(crate_of(path), []).append(place_in(path) + chosen_of(files[path]))
    return [""] + [f"- `{crate}`: {', '.join(places)}" for crate, places in found.items()]


def roots_of(library, command):
    """What the case of a command names: how its files are read, and how their texts are judged."""
    cases = [item for name in ("files_of", "JudgesOrder") for item in library.find(ANSWERS, name)]
    return library.find(PHASES, "OpensAll") + [found for item in cases for found in case_citations(library, item, command)]


def counts_section(theorem):
    """How much there is to read, in all and by command."""
    head = ("command", "definitions", "lines", "files")
    commands = [(f"`{name}`",) + size(items) for name, items in theorem.reached.items()]
    commands += [("all of `hz`",) + size(theorem.run.all), ("all of `hz_why`",) + size(theorem.why.all),
                 ("of these not of `hz`",) + size(theorem.why.all - theorem.run.all)]
    lines = ["## How much there is", "", "What a command needs by its files and its case of `JudgesOrder`, and all clauses:", ""]
    return lines + table(head, commands)


def said_by(clause):
    """What a clause says, without its kind and its name."""
    return clause.text[clause.text.index("{") + 1:clause.text.rindex("}")].strip()


def clause_section(theorem, contract, prefix, name, before):
    """A clause, and what it needs beyond what is listed before it."""
    clause, items = contract.promised[name], contract.needs[name][0]
    lines = ["", f"### {prefix}{name}", "", contract.ensured[name], "", "```", said_by(clause), "```", ""]
    if not items:
        return lines + [f"Line {clause.line}; no definition."]
    needs = f"Line {clause.line}; {in_words(size(items))}"
    if not before:
        lists = command_lists(theorem.order, theorem.reached, items, by_file)
        return lines + [f"{needs}, by the commands whose files or case of `JudgesOrder` need them:", ""] + lists
    if not items - before:
        return lines + [needs + "."]
    return lines + [f"{needs}. Not listed above:"] + listed(theorem, items - before)


def repeated_clauses(contract, earlier):
    """The clauses with the sentence and the text of one of an earlier contract, but for the name of answers."""
    there = earlier.promised if earlier else {}
    return [name for name in contract.ensured if name in there and contract.ensured[name] == earlier.ensured[name]
            and contract.promised[name].text.replace("WhyAnswer", "Answer") == there[name].text]


def contract_section(theorem, contract, program, before, earlier=None):
    """All clauses of the `run` of a program. Those that repeat one of an earlier contract come last, by name."""
    path, prefix = contract.place[0], f"{program} " if earlier else ""
    lines = [f"## What `run` of `{program}` promises", "", f"The clauses are in {link(path)} of `{crate_of(path)}`. It asks of its caller:", ""]
    lines += [f"- `{name}`, line {contract.asked[name].line}: {sentence} `{said_by(contract.asked[name])}`" for name, sentence in REQUIRED.items()]
    before, repeated = set(before), repeated_clauses(contract, earlier)
    for name in contract.ensured:
        if name not in repeated:
            lines += clause_section(theorem, contract, prefix, name, before)
            before |= contract.needs[name][0]
    if repeated:
        if set().union(*(contract.needs[name][0] for name in repeated)) - before:
            raise Unreadable(f"{path}: a clause that is as one of another `run` needs a definition that is not listed")
        lines += ["", "The others say what those of `hz` say, with `WhyAnswer` in place of `Answer`. They need only what is listed above:", ""]
        lines += table(("clause", "line", "definitions", "lines", "files"),
                       [(f"[{name}](#{name})", contract.promised[name].line) + size(contract.needs[name][0]) for name in repeated])
    return lines


def clauses_section(theorem):
    """All clauses of both calls `run`."""
    return contract_section(theorem, theorem.run, "hz", set()) + [""] + contract_section(theorem, theorem.why, "hz_why", theorem.run.all, theorem.run)


def words_section(theorem):
    """The words of libraries that definitions use."""
    modules = collections.defaultdict(set)
    needs = [*theorem.run.needs.values(), *theorem.why.needs.values()]
    for word in set().union(*(words for _, words in needs)):
        modules[word.module.replace("Rattle.", "", 1).replace(".specs", "", 1)].add(word.name)
    count = sum(len(names) for names in modules.values())
    lines = ["## Words of the toolchain", "", f"The definitions use {count} words of the toolchain's library. They are trusted.", ""]
    return lines + [f"- `{module}`: {names_in_code(sorted(modules[module]))}" for module in sorted(modules)]


def unreached_section(theorem):
    """The definitions that no clause reaches, in files of which a clause reaches others; and how many there are in other files."""
    files, others = collections.OrderedDict(), []
    for source in theorem.model_files():
        free = [item for item in source.definitions.values() if item not in theorem.all]
        if len(free) == len(source.definitions):
            others += free
        elif free:
            files.setdefault(crate_of(source.path), []).append(f"{place_in(source.path)} ({names_of(free)})")
    lines = ["## Definitions that no clause reaches", "", f"{UNREACHED} In files that no list above has there are"
             f" {in_words(size(others))}. In the other files:", ""]
    return lines + [f"- `{crate}`: {', '.join(found)}" for crate, found in files.items()]


def named_in_pages():
    """The words of the pages that name laws by what they are of."""
    words = set()
    for page_of_laws in PAGES_OF_LAWS:
        with open(os.path.join(TOP, page_of_laws), encoding="utf-8") as file:
            words.update(re.findall(r"\w+", file.read()))
    return words


def laws_section(theorem):
    """The laws that no other page names, by name."""
    lines, elsewhere = ["## Laws that say it again in other words", ""], named_in_pages()
    files = collections.OrderedDict()
    for law in theorem.laws:
        if law.name not in elsewhere:
            files.setdefault(law.path, []).append(law.name)
    count = len(theorem.laws) - sum(map(len, files.values()))
    lines.append(f"A law is a proved statement about definitions. The crates of definitions and of laws have {len(theorem.laws)}, in `src`; some"
                 " crates of code have more, on their own pages. If you doubt a definition, look here for what follows from it."
                 f" [RULES.md](RULES.md) and [GUARANTEES.md](GUARANTEES.md) name {count} of them by what they are of. The others:")
    crates = collections.OrderedDict()
    for path, names in files.items():
        crates.setdefault(crate_of(path), []).append(f"{place_in(path)} {names_in_code(names)}")
    return lines + [""] + [f"- `{crate}`: {', '.join(found)}" for crate, found in crates.items()]


def page():
    """The whole page."""
    theorem = Theorem()
    sections = [[first_screen(theorem.library, table)], [INTRODUCTION], counts_section(theorem), [SIGNS], clauses_section(theorem),
                words_section(theorem), unreached_section(theorem), laws_section(theorem)]
    return "\n\n".join("\n".join(section) for section in sections) + "\n"


def check(made):
    """0 if the page that is there is the one that is made; else the first line that differs is printed, and 1."""
    path = os.path.join(TOP, PAGE)
    there = ""
    if os.path.exists(path):
        with open(path, encoding="utf-8") as file:
            there = file.read()
    if there == made:
        print(f"{PAGE}: as the sources say")
        return 0
    old, new = there.split("\n"), made.split("\n")
    place = next((at for at, (one, other) in enumerate(zip(old, new)) if one != other), min(len(old), len(new)))
    print(f"{PAGE}:{place + 1}: not as the sources say; make it again with `python3 tools/theorem.py > {PAGE}`")
    print("  is:     " + (old[place] if place < len(old) else "(the end)"))
    print("  wanted: " + (new[place] if place < len(new) else "(the end)"))
    return 1


def main():
    parser = argparse.ArgumentParser(description=__doc__.split("\n", maxsplit=1)[0])
    parser.add_argument("--check", action="store_true", help=f"compare with {PAGE}, and end with 1 if it differs")
    words = parser.parse_args()
    sys.stdout.reconfigure(encoding="utf-8")
    try:
        made = page()
    except Unreadable as fault:
        print(f"theorem.py: {fault}", file=sys.stderr)
        return 2
    if words.check:
        return check(made)
    sys.stdout.write(made)
    return 0


if __name__ == "__main__":
    run(main)
