"""Finds the public calls that can want memory: those whose answer has a variant for it."""
import collections
import glob
import os
import re

from limits.page import Wrong

LIST = "tools/limits/calls.txt"
# Calls that answer by a status, of which one is for want of memory.
BY_STATUS = [("hz_tool", "run"), ("hz_explain", "run"), ("hz_same_top", "run")]

# Crates without calls of their own, or whose calls are those of another crate.
NO_CODE = ("_model", "_laws", "_rows")
ANSWERS = re.compile(r"\b(?:NoMemory|AllocError)\b")


def code_crates(top):
    """The crates of code in the order of crates.txt."""
    with open(os.path.join(top, "crates.txt"), encoding="utf-8") as file:
        names = [line.split(":")[0].split()[0] for line in file if ":" in line and not line.startswith("#")]
    return [name for name in names if not name.endswith(NO_CODE) and os.path.exists(os.path.join(top, "crates", name, "src", "lib.rt"))]


def texts_of(top, crate):
    """The files of a crate of code, by their paths."""
    found = {}
    for path in sorted(glob.glob(os.path.join(top, "crates", crate, "src", "**", "*.rt"), recursive=True)):
        with open(path, encoding="utf-8") as file:
            found[os.path.relpath(path, os.path.join(top, "crates", crate, "src"))] = re.sub(r"//.*", "", file.read())
    return found


def exported(texts):
    """The names that the root of a crate gives out, and the files of modules that it gives out whole."""
    root = texts["lib.rt"]
    names, modules = set(re.findall(r"^pub (?:struct|enum|trait|fn) (\w+)", root, re.M)), set()
    for used in re.findall(r"^pub use ([^;]*);", root, re.M):
        braces = re.search(r"\{(.*)\}", used, re.S)
        names |= set(re.findall(r"\w+", braces.group(1))) if braces else {re.findall(r"\w+", used)[-1]}
    for module in re.findall(r"^pub mod (\w+);", root, re.M):
        modules |= {path for path in texts if path == module + ".rt" or path.startswith(module + "/")}
    return names, modules


def wanting_errors(top):
    """The error types that have a variant for want of memory."""
    found = set()
    for crate in code_crates(top):
        for text in texts_of(top, crate).values():
            for name, body in re.findall(r"^pub enum (\w+)[^{]*\{(.*?)^\}", text, re.M | re.S):
                if ANSWERS.search(body):
                    found.add(name)
    return found


def functions(text):
    """The public functions of a file: the type of the `impl` around each, its name, and its answer."""
    for found in re.finditer(r"^( *)pub fn (\w+)(.*?)(?=\n *(?:requires|ensures|ghost|\{)|\{)", text, re.M | re.S):
        around = None
        if found.group(1):
            heads = list(re.finditer(r"^impl(?:<[^>]*>)? (?:\w+(?:<[^>]*>)? for )?(\w+)", text[:found.start()], re.M))
            around = heads[-1].group(1) if heads else None
        answer = found.group(3).rsplit("->", 1)
        yield around, found.group(2), answer[1].strip() if len(answer) == 2 else ""


def wanting_calls(top):
    """The public calls that can want memory, as crate and name, in the order of crates and files."""
    errors, calls = wanting_errors(top), []
    word = re.compile(r"\b(?:NoMemory|AllocError|" + "|".join(sorted(errors)) + r")\b")
    for crate in code_crates(top):
        texts = texts_of(top, crate)
        names, modules = exported(texts)
        for path, text in texts.items():
            for around, name, answer in functions(text):
                if ((around or name) in names or path in modules) and word.search(answer):
                    calls.append((crate, f"{around}::{name}" if around else name))
    return list(dict.fromkeys(calls))


# A call of the list: its crate and name, the largest input that a run gives it, the limit of that input, the run, and its line.
Call = collections.namedtuple("Call", "crate name input limit run line")


def listed_calls(top):
    """The list of calls."""
    calls = []
    with open(os.path.join(top, LIST), encoding="utf-8") as file:
        for number, line in enumerate(file, 1):
            if line.startswith("#") or not line.strip():
                continue
            cells = [cell.strip() for cell in line.split("|", 3)]
            # a row of a file may have the mark itself
            words = cells[0].split()
            if len(cells) != 4 or len(words) != 2:
                raise Wrong(f"{LIST}:{number}: `crate call | input | limit | run` is wanted")
            calls.append(Call(*words, *cells[1:], number))
    return calls


def call_faults(top, runs):
    """Calls of the sources that the list lacks, those that it has and the sources lack, and runs that there are not."""
    calls, wanted = listed_calls(top), wanting_calls(top) + BY_STATUS
    named = [(call.crate, call.name) for call in calls]
    for crate, name in wanted:
        if named.count((crate, name)) != 1:
            yield f"{LIST}: {named.count((crate, name))} lines of `{crate} {name}`, 1 is wanted"
    for call in calls:
        if (call.crate, call.name) not in wanted:
            yield f"{LIST}:{call.line}: no public call `{call.name}` of {call.crate} can want memory"
        if call.run not in runs and call.run != "none" and not has_row(top, call.run):
            yield f"{LIST}:{call.line}: no run `{call.run}`"


def has_row(top, run):
    """Whether a file of rows has a line that begins so."""
    path, _, start = run.partition(":")
    path = os.path.join(top, path)
    if not path.endswith(".rows") or not os.path.exists(path):
        return False
    with open(path, encoding="utf-8") as file:
        return any(line.startswith(start.strip()) for line in file)
