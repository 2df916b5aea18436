"""Names of the sources that pages have in backquotes: each is a word of some source, and `Module.name` one of a file of that name."""
import collections
import os
import re

from pages.files import SOURCES, below, pages_of, text_of
from pages.links import without_blocks

PAGES = ("docs/RULES.md", "docs/GUARANTEES.md", "docs/GLOSSARY.md", "docs/LAYERS.md", "CONTRIBUTING.md")
NAME = re.compile(r"`([A-Za-z_]\w*(?:(?:\.|::)\w+)*)`")
WORD = re.compile(r"[A-Za-z_]\w*")
# files whose words count, and files whose names alone do
READ = (".antt", ".rt", ".py", ".sh", ".edit", ".1", ".c", ".in")
NAMED = (".md", ".rows", ".trace", ".block", ".state")
# names of GCC's own, and the form of a name
OTHERS = ("cpu_unit_reservation_p", "Module.name")


def words_by_module(top):
    """The words of all sources: of all together, and of each definition's module."""
    everything, modules = set(), collections.defaultdict(set)
    for folder in SOURCES:
        for path in below(top, folder, READ + NAMED):
            words = set(WORD.findall(text_of(top, path))) if path.endswith(READ) else set()
            everything |= words
            everything.update(WORD.findall(path))
            if path.endswith(".antt"):
                modules[os.path.splitext(os.path.basename(path))[0]] |= words
    for path in ("Makefile", "crates.txt"):
        everything |= set(WORD.findall(text_of(top, path)))
    return everything, modules


def check(top):
    """A line for each name that no source has."""
    everything, modules = words_by_module(top)
    wrong = []
    for page in pages_of(top):
        if page not in PAGES and not page.startswith("crates/"):
            continue
        if page.endswith("PLANTED.md"):
            continue
        text = without_blocks(text_of(top, page))
        for found in NAME.finditer(text):
            name = found.group(1)
            parts = re.split(r"\.|::", name)
            known = name in OTHERS or all(part in everything for part in parts)
            if len(parts) == 2 and parts[0] in modules and "::" not in name and name not in OTHERS:
                known = parts[1] in modules[parts[0]] or parts[1] in ("antt", "md", "rows", "rt")
            if not known:
                wrong.append(f"{page}:{text.count(chr(10), 0, found.start()) + 1}: no source has {name}")
    return wrong
