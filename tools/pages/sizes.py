"""How many bytes the pages have, by what they are."""
import collections
import os

from pages.files import PLANTED, manual_of, pages_of


def kind_of(page):
    """The group that a page is counted in: crates, examples and manual pages together, others by themselves."""
    if os.path.basename(page) == PLANTED and page.startswith("crates/"):
        return "planted bodies"
    for folder, kind in (("crates/", "crates"), ("examples/", "examples"), ("man/", "man")):
        if page.startswith(folder):
            return kind
    return page


def table(top):
    """A line for each group with its bytes, the largest first, and their sum."""
    bytes_of = collections.Counter()
    for page in pages_of(top) + manual_of(top):
        bytes_of[kind_of(page)] += os.path.getsize(os.path.join(top, page))
    return [f"{size:8,} {kind}" for kind, size in bytes_of.most_common()] + [f"{sum(bytes_of.values()):8,} all pages"]
