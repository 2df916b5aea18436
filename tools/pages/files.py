"""The pages of the repository, and its sources."""
import os

SOURCES = ("crates", "tools", "bench", "examples", "man")
PLANTED = "PLANTED.md"


def below(top, folder, endings):
    """Each file below a folder that has one of the endings, by its path from the top; nothing that a build makes."""
    found = []
    for place, folders, names in os.walk(os.path.join(top, folder)):
        folders[:] = sorted(name for name in folders if name not in ("out", "__pycache__"))
        found += [os.path.relpath(os.path.join(place, name), top) for name in sorted(names) if name.endswith(endings)]
    return found


def is_page(path):
    """Whether a file in Markdown is a page: those of machines are named otherwise."""
    return os.path.basename(path) in ("README.md", PLANTED) or not path.startswith(("examples/", "tools/"))


def pages_of(top):
    """All pages in Markdown, by their paths from the top."""
    pages = [name for name in sorted(os.listdir(top)) if name.endswith(".md")]
    for folder in ("docs",) + SOURCES:
        pages += [path for path in below(top, folder, ".md") if is_page(path)]
    return pages


def manual_of(top):
    """The manual pages."""
    return below(top, "man", ".1")


def text_of(top, path):
    """The text of a file."""
    with open(os.path.join(top, path), encoding="utf-8", errors="replace") as file:
        return file.read()
