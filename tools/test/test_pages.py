"""Tries the checks of tools/pages on made-up pages and sources: nothing is wrong with them, and each planted fault is one line."""
import os
import sys
import tempfile

sys.path.insert(0, os.path.join(os.path.dirname(os.path.abspath(__file__)), ".."))
from pages import links, manual, names  # noqa: E402

FILES = {
    "README.md": "# Top\n\nhz reads [formats](docs/FORMATS.md), 'Texts', and [rules](docs/RULES.md#limits).\n",
    "CONTRIBUTING.md": "# Change\n\n`Limits.line_limit` and `run` of `top.rt`.\n",
    "docs/FORMATS.md": "# Formats\n\n## Texts\n\nwalk: Stray\n\n```\n[not](a/link.md)\n```\n",
    "docs/RULES.md": "# Rules\n\n## Limits\n\n4,096: `line_limit`\n",
    "man/hz.1": ".Sh SYNOPSIS\n.Cm walk\n.Sh FAULTS\nStray\n4,096\n.Sh EXIT STATUS\n.It 0\n.It 1, 2, 3\n.It 4\n.It 5\n.It 6\n.It 7\n.Sh END\n",
    "tools/commands.txt": "# commands\nhz program 0 walk\n",
    "crates/hz_a_model/specs/Limits.antt": "line_limit = 4096\nform_word stray = codes \"Stray\"\n",
    "crates/hz_tool/src/top.rt": "pub fn run() {}\n",
    "crates/hz_tool_words/src/table.rt": "name: \"walk\",\n",
    "Makefile": "",
    "crates.txt": "",
}

# what is planted: the file, what is there, what is put in its place, and the line that reports it
PLANTED = (
    ("README.md", "docs/FORMATS.md", "docs/NONE.md", "README.md:3: no docs/NONE.md"),
    ("README.md", "'Texts'", "'Other'", "README.md:3: docs/FORMATS.md has no section 'Other'"),
    ("README.md", "#limits", "#none", "README.md:3: no section of docs/RULES.md has the anchor none"),
    ("README.md", "hz reads", "it reads", "README.md: no hz"),
    ("CONTRIBUTING.md", "`run`", "`runs`", "CONTRIBUTING.md:3: no source has runs"),
    ("CONTRIBUTING.md", "Limits.line_limit", "Limits.run", "CONTRIBUTING.md:3: no source has Limits.run"),
    ("docs/FORMATS.md", "walk: Stray", "walk:", "docs/FORMATS.md: no Stray, form_word of crates/hz_a_model/specs/Limits.antt"),
    ("docs/FORMATS.md", "walk: Stray", "Stray", "docs/FORMATS.md: no command walk"),
    ("docs/RULES.md", "4,096", "4096", "docs/RULES.md: no line has 4,096 and Limits.line_limit"),
    ("docs/RULES.md", "`line_limit`", "", "docs/RULES.md: no line has 4,096 and Limits.line_limit"),
    ("docs/RULES.md", ": `line", "\n`line", "docs/RULES.md: no line has 4,096 and Limits.line_limit"),
    ("man/hz.1", "\n4,096", "\n14,096", "man: no 4,096, Limits.line_limit"),
    ("man/hz.1", "Stray", "Strays", "man: no Stray, form_word of crates/hz_a_model/specs/Limits.antt"),
    ("man/hz.1", ".It 6\n", "", "man/hz.1: no status 6"),
    ("man/hz.1", ".Cm walk", ".Cm walks", "man/hz.1: no command walk in the synopsis"),
    ("tools/commands.txt", "hz program", "hz_new tool new.py\nhz program", "man/hz_new.1: missing, hz_new is in tools/commands.txt"),
)


def checked(files):
    """What the checks report of files."""
    with tempfile.TemporaryDirectory() as top:
        for path, text in files.items():
            os.makedirs(os.path.join(top, os.path.dirname(path)), exist_ok=True)
            with open(os.path.join(top, path), "w", encoding="utf-8") as file:
                file.write(text)
        return links.check(top) + names.check(top) + manual.check(top)


def main():
    """Tries all, and prints what is other than wanted."""
    wrong = [f"nothing planted: {line}" for line in checked(FILES)]
    for path, old, new, report in PLANTED:
        if FILES[path].count(old) != 1:
            wrong.append(f"{path}: '{old}' is not there once")
        found = checked({**FILES, path: FILES[path].replace(old, new)})
        if found != [report]:
            wrong.append(f"{path}, '{new}': {found}, wanted {report}")
    print("\n".join(wrong + [f"pages: {len(PLANTED)} planted faults, {len(wrong)} wrong"]))
    return 1 if wrong else 0


if __name__ == "__main__":
    sys.exit(main())
