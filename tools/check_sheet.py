#!/usr/bin/env python3
"""Makes data sheets of the examples, of ten of GCC's pipelines, and of descriptions that a seed makes, and looks at them. What a page shows
is compared with answers that a calendar in Python gives: waits, rates, charts, what is held in each cycle. In headless chromium the same is
read out of its document; there the console reports nothing, nothing is asked of the network, and no line is wider than the window at
either width. Without chromium the file alone is compared."""
import argparse
import glob
import os
import re
import resource
import subprocess
import sys
import tempfile

sys.dont_write_bytecode = True

import check_gcc  # noqa: E402
import check_modulo  # noqa: E402
from why_check.making import WhyMaker  # noqa: E402
from check_walk import Simulation  # noqa: E402
from extract import Reader, extract  # noqa: E402
from extraction.forms import Fault  # noqa: E402
from extraction.running import run
from extraction.writing import written  # noqa: E402
from sheet_check.browser import Browser, Failed, find_browser  # noqa: E402
from sheet_check.comparing import compare_page  # noqa: E402
from sheet_check.reading import shown_by  # noqa: E402
from sheet_check.scripts import FILTER, HARD, WIDE  # noqa: E402

TOOLS = os.path.dirname(os.path.abspath(__file__))
TOP = os.path.dirname(TOOLS)
PIPELINES = ("m68k/cf", "i386/btver2", "i386/athlon", "i386/znver1", "s390/2827", "ia64/itanium2", "aarch64/falkor", "i386/bdver1", "frv/frv",
             "arm/cortex-m7")
WIDTHS = (1280, 390)
MOST_BYTES = 5000000
MOST_SECONDS = 10
# names that mean something in HTML, in a template, in a graph of dot, or in a text of hz
ODD_NAMES = ("<b>", "</script>", "</style>", "&lt;", "&amp", "<!--", "-->", "{{x}}", "{%if%}", "\\N", "\\\\", "'q'", "%s", "-", "0", "[x]", "a;b", "X", "cycle",
             "javascript:x", "<img/src=x/onerror=alert`1`>")


class Check:
    """Makes pages, looks at them, and counts what differs."""

    def __init__(self, given, folder):
        self.given, self.folder = given, folder
        self.hz, self.hz_why = os.path.abspath(given.hz), os.path.abspath(given.hz_why)
        path = None if given.file_alone else find_browser()
        if path is None:
            print(f"{'--file-alone' if given.file_alone else 'no chromium'}: the file of each page is compared alone", flush=True)
        self.browser = Browser(path) if path else None
        self.pages = self.compared = self.wrong = 0

    def say(self, text):
        self.wrong += 1
        print(text)

    def ask(self, *words):
        """The text of a program."""
        return subprocess.run(words, stdout=subprocess.PIPE, stderr=subprocess.STDOUT, check=False).stdout.decode("latin-1")

    def make(self, name, description, blocks, traces):
        """The path of a page, and the seconds of a processor that it took; None if it was not made."""
        out = os.path.join(self.folder, f"{self.pages}.html")
        words = [part for kind, paths in (("--block", blocks), ("--trace", traces)) for path in paths for part in (kind, path)]
        before = resource.getrusage(resource.RUSAGE_CHILDREN)
        done = subprocess.run([sys.executable, os.path.join(TOOLS, "sheet.py"), "--hz", self.hz, "--hz-why", self.hz_why, "-o", out,
                               *words, description], stdout=subprocess.PIPE, stderr=subprocess.STDOUT, check=False)
        after = resource.getrusage(resource.RUSAGE_CHILDREN)
        self.pages += 1
        if done.returncode != 0 or done.stdout:
            self.say(f"{name}: status {done.returncode}, {done.stdout.decode('latin-1')}")
            return None, 0
        return out, after.ru_utime + after.ru_stime - before.ru_utime - before.ru_stime

    def answers(self, description, blocks, traces):
        """What the programs answer to the files of a page."""
        return {"tables": self.ask(self.hz, "compile", description),
                "blocks": {block: [self.ask(self.hz, command, description, block) for command in ("schedule", "bound", "modulo")]
                           for block in blocks},
                "traces": {trace: self.ask(self.hz_why, description, trace) for trace in traces}}

    def page(self, name, description, blocks=(), traces=(), looks=True):
        """Makes a page, and compares what its document shows."""
        out, seconds = self.make(name, description, blocks, traces)
        if out is None:
            return
        with open(out, encoding="utf-8") as file:
            text = file.read()
        if looks and self.browser:
            text = self.look(name, out)
        found = compare_page(name, shown_by(text), description, self.answers(description, blocks, traces), self.given.seed)
        self.compared += found.count
        for line in found.wrong[:5]:
            self.say(line[:2000])
        size = os.path.getsize(out)
        if size > MOST_BYTES or seconds > MOST_SECONDS:
            self.say(f"{name}: {size} bytes, {seconds:.1f} seconds")
        if looks:
            print(f"{name}: {found.count} values, {size} bytes, {seconds:.1f} s of processors", flush=True)

    def look(self, name, out):
        """Shows a page at both widths, light and dark; the document as it is then. In all four ways if pictures are kept."""
        for width in WIDTHS:
            for dark in (False, True) if self.given.pictures else (width < WIDTHS[0],):
                self.browser.open(out, width, dark=dark)
                for line in self.browser.console:
                    self.say(f"{name}: the console at {width}: {line}")
                for url in self.browser.requests:
                    if not url.startswith(("data:", "file://" + out)):
                        self.say(f"{name}: asks for {url}")
                for line in self.browser.run(WIDE):
                    self.say(f"{name}: wider than {width}: {line}")
                for line in self.browser.run(HARD)[:5]:
                    self.say(f"{name}: at {width}, {'dark' if dark else 'light'}: {line}")
                if self.given.pictures:
                    shade = "dark" if dark else "light"
                    self.browser.picture(os.path.join(self.given.pictures, f"{re.sub('[^A-Za-z0-9]+', '-', name)}-{width}-{shade}.png"))
        self.use(name)
        return self.browser.run("document.documentElement.outerHTML")

    def use(self, name):
        """The filter leaves the cards of a name; the first stop of the keyboard is the link to the main part."""
        names = self.browser.run("Array.from(document.querySelectorAll('.card h3')).map(function (head) { return head.textContent; })")
        if names:
            wanted = sum(names[-1].lower() in other.lower() for other in names)
            left = self.browser.run(f"{FILTER}({names[-1]!r})")
            if left != [wanted, len(names)]:
                self.say(f"{name}: the filter leaves {left}, wanted {[wanted, len(names)]}")
        self.browser.press("Tab")
        if self.browser.run("document.activeElement.className") != "skip":
            self.say(f"{name}: the first stop of the keyboard is another")

    def close(self):
        if self.browser:
            self.browser.close()


def files_beside(description, ending):
    return sorted(glob.glob(os.path.join(os.path.dirname(description), "*" + ending)))


def examples(check):
    """The pages of the examples, each with its blocks and traces."""
    for description in sorted(glob.glob(os.path.join(TOP, "examples", "*", "*.md"))):
        name = os.path.relpath(description, TOP)
        if os.path.basename(description) == "README.md" or (check.given.only or "") not in name:
            continue
        is_main = os.path.basename(description) == "machine.md"
        blocks, traces = (files_beside(description, ending) if is_main else [] for ending in (".block", ".trace"))
        check.page(name, description, blocks, traces)


def extracted(config, folder, name):
    """The path of a pipeline of GCC in the language of hz, joined and aligned."""
    target, pipeline = name.split("/")
    os.chdir(config)
    reader, main = Reader(), f"{target}/{target}.md"
    files = next(files for files in check_gcc.pipelines(reader, main) if os.path.basename(files[0]) == pipeline + ".md")
    taken, _ = extract(reader, files=files, defs=[main], merge=True, align=True)
    path = os.path.join(folder, name.replace("/", "-") + ".md")
    with open(path, "w", encoding="latin-1") as out:
        out.write(written(taken, []))
    return path


def gcc(check, folder):
    """The pages of GCC's pipelines, if its source is there."""
    if not os.path.isdir(check.given.source) and not glob.glob(check.given.source):
        print(f"no {check.given.source}: the pages of GCC's pipelines are left out")
        return
    source = check.given.source if os.path.isdir(check.given.source) else glob.glob(check.given.source)[0]
    config = os.path.abspath(check_gcc.unpack(source, folder))
    for name in (name for name in PIPELINES if (check.given.only or "") in name):
        try:
            check.page(name, extracted(config, folder, name))
        except (Fault, StopIteration, OSError) as fault:
            check.say(f"{name}: {fault!r}")


def odd(check, folder):
    """A page of odd names; they are those of automata, units and classes."""
    written_names = [name.replace("\\", "\\\\") for name in ODD_NAMES]
    text = f'(define_attr "<i>" "{", ".join(written_names)}" (const_string "<b>"))\n(define_automaton "{", ".join(written_names[:7])}")\n'
    for place, name in enumerate(written_names):
        text += f'(define_cpu_unit "{name}" "{written_names[place % 7]}")\n'
    for place, name in enumerate(written_names):
        text += f'(define_insn_reservation "{name}" {place} (eq_attr "<i>" "{name}") "{name}, {written_names[place - 1]}*2")\n'
    trace = "".join(f"issue {name}\nadvance 1\n" for name in ODD_NAMES) + "issue <b>\nissue <b>\n"
    block = "".join(f'(insn {place} (set (reg {place}) (reg {place - 1})) (set_attr "<i>" "{name}"))\n' for place, name in enumerate(written_names, 1))
    path = write(folder, "<odd> & 'named'.md", text)
    check.page("odd names", path, [write(folder, "<odd>.block", block)], [write(folder, "<odd>.trace", trace)])


def made(check, folder):
    """Pages of descriptions, traces and blocks that a seed makes. Those that hz does not compile give no page."""
    maker = WhyMaker(check.given.seed)
    for number in range(check.given.made):
        path = os.path.join(folder, "made.md")
        if number % 2:
            machine = check_modulo.Machine(maker.random)
            text, block = machine.text, "".join(check_modulo.Insn(maker.random).text(place + 1) for place in range(maker.random.randint(0, 14)))
        else:
            text, block = maker.description(), ""
        with open(path, "w", encoding="ascii") as out:
            out.write(text)
        if not check.ask(check.hz, "compile", path).startswith("hazard-tables"):
            continue
        traces = [write(folder, f"made{place}.trace", maker.trace(Simulation(path))) for place in range(2)]
        traces = [trace for trace in traces if not check.ask(check.hz_why, path, trace).startswith("fault")]
        blocks = [write(folder, "made.block", block)] if block else []
        blocks = [own for own in blocks if check.ask(check.hz, "schedule", path, own)[:1].isdigit()]
        before = check.wrong
        check.page(f"made {number}", path, blocks, traces, looks=False)
        if check.wrong > before:
            print(text, block)
            return


def write(folder, name, text):
    path = os.path.join(folder, name)
    with open(path, "w", encoding="ascii") as out:
        out.write(text)
    return path


def words():
    parser = argparse.ArgumentParser(description=__doc__)
    parser.add_argument("--source", default=check_gcc.SOURCES, help="GCC's source, a tar file or a folder")
    parser.add_argument("--pictures", metavar="FOLDER", help="where pictures of all pages are kept")
    parser.add_argument("--seed", type=int, default=83)
    parser.add_argument("--file-alone", action="store_true", help="compare the files of pages, without chromium")
    parser.add_argument("--only", metavar="NAME", help="only pages of examples, of odd names and of pipelines with this in their name")
    parser.add_argument("--made", type=int, default=40, help="how many descriptions a seed makes")
    parser.add_argument("hz")
    parser.add_argument("hz_why")
    given = parser.parse_args()
    given.source, given.hz, given.hz_why = (os.path.abspath(path) for path in (given.source, given.hz, given.hz_why))
    return given


def main():
    given = words()
    if given.pictures:
        given.pictures = os.path.abspath(given.pictures)
        os.makedirs(given.pictures, exist_ok=True)
    with tempfile.TemporaryDirectory() as folder:
        check = Check(given, folder)
        try:
            examples(check)
            if (given.only or "") in "odd names":
                odd(check, folder)
            gcc(check, folder)
            made(check, folder)
        except Failed as failed:
            check.say(f"chromium: {failed}")
        finally:
            check.close()
    print(f"check-sheet: {check.pages} pages, {check.compared} values compared, {check.wrong} wrong")
    return 1 if check.wrong or not check.pages else 0


if __name__ == "__main__":
    run(main)
