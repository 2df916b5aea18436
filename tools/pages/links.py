"""Links of pages: each leads to a file or a folder that is there, and to a section of it if it names one."""
import os
import re

from pages.files import pages_of, text_of

LINK = re.compile(r"\]\(([^)\s]+)\)(?:,\s+['\"]([^'\"]+)['\"])?")
FENCED = re.compile(r"^```.*?^```$", re.MULTILINE | re.DOTALL)


def without_blocks(text):
    """A text whose blocks between fences are empty lines, so that lines keep their numbers."""
    return FENCED.sub(lambda block: "\n" * block.group().count("\n"), text)


def sections_of(text):
    """The headings of a page."""
    return [heading.strip() for heading in re.findall(r"^#+ (.*)$", without_blocks(text), re.MULTILINE)]


def anchor_of(heading):
    """The anchor that is made of a heading."""
    return re.sub(r"[^\w\- ]", "", heading.lower()).replace(" ", "-")


def fault_of(top, page, target, section):
    """What is wrong with a link, or None. A section is named after a link as in `[RULES](RULES.md), 'Limits'`."""
    path, _, anchor = target.partition("#")
    place = os.path.normpath(os.path.join(os.path.dirname(page), path)) if path else page
    if not os.path.exists(os.path.join(top, place)):
        return f"no {target}"
    if not place.endswith(".md"):
        return None
    sections = sections_of(text_of(top, place))
    if anchor and anchor not in map(anchor_of, sections):
        return f"no section of {place} has the anchor {anchor}"
    if section and section not in (re.sub("`", "", name) for name in sections) and section not in sections:
        return f"{place} has no section '{section}'"
    return None


def check(top):
    """A line for each link that leads nowhere."""
    wrong = []
    for page in pages_of(top):
        text = without_blocks(text_of(top, page))
        for link in LINK.finditer(text):
            target, section = link.groups()
            if re.match(r"[a-z]+:", target):
                continue
            fault = fault_of(top, page, target, section)
            if fault:
                wrong.append(f"{page}:{text.count(chr(10), 0, link.start()) + 1}: {fault}")
    return wrong
