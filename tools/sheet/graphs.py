"""Graphs of automata, which `dot` of graphviz draws."""
import re
import resource
import shutil
import subprocess

MOST_STATES = 60
# of a processor, so that a busy machine draws the same graphs, for one graph and for all; and by the clock
SECONDS, ALL_SECONDS = 4, 16
MOST_SECONDS = 300


def quoted(text):
    """A label. `dot` reads escapes and the entities of HTML in it."""
    return '"' + text.replace("&", "&amp;").replace("\\", "\\\\").replace('"', '\\"') + '"'


def edges_of(table):
    """The edges of an automaton: for each pair of states the columns of the issues that lead there; and the pairs of the advance."""
    issues = {}
    for state in range(table.states()):
        for column in range(table.columns):
            after = table.after(state, column)
            if after is not None:
                issues.setdefault((state, after), []).append(column)
    return issues, list(enumerate(table.advances()))


def text_of(table, labels):
    """The graph in the language of `dot`; `labels` has a text for each column."""
    issues, advances = edges_of(table)
    lines = ["digraph {", "rankdir=LR; bgcolor=transparent; nodesep=0.25; ranksep=0.45; margin=0.02;",
             'node [shape=circle, width=0.42, fixedsize=true, fontsize=12, fontname="Helvetica,Arial,sans-serif"];',
             'edge [fontsize=11, arrowsize=0.6, fontname="Helvetica,Arial,sans-serif"];', '0 [shape=doublecircle, class="start"];']
    for state in range(table.states()):
        lines.append(f'{state} [label="{state}"];')
    for (state, after), columns in issues.items():
        lines.append(f'{state} -> {after} [label={quoted(wrapped([labels[column] for column in columns]))}, class="issue"];')
    for state, after in advances:
        if (state, after) != (0, 0):
            lines.append(f'{state} -> {after} [style=dashed, class="advance", weight=0];')
    return "\n".join(lines + ["}"])


def wrapped(labels):
    """Labels after one another, a few on a line."""
    lines, line = [], ""
    for label in labels:
        if line and len(line) + len(label) > 24:
            lines.append(line)
            line = ""
        line += (", " if line else "") + label
    return "\n".join(lines + [line])


def draw(table, labels, graphs=1):
    """The picture as an element of SVG, and why there is none. `graphs` is how many are drawn."""
    dot = shutil.which("dot")
    if dot is None:
        return None, "The program dot of graphviz is missing (Debian: graphviz), so there is no graph here."
    try:
        seconds = max(1, min(SECONDS, ALL_SECONDS // graphs))
        status, svg = run(dot, text_of(table, labels), seconds)
    except subprocess.TimeoutExpired:
        return None, f"The program dot took more than {MOST_SECONDS} seconds, so there is no graph here."
    except OSError as error:
        return None, f"The program dot could not be run ({error.strerror}), so there is no graph here."
    if status < 0:
        return None, f"The program dot took more than {seconds} seconds, so there is no graph here."
    if status > 0:
        return None, f"The program dot ended with status {status}, so there is no graph here."
    return cleaned(svg), None


def run(dot, text, seconds):
    """The status of `dot` and what it writes; it is ended after some seconds of a processor."""
    with subprocess.Popen([dot, "-Tsvg"], stdin=subprocess.PIPE, stdout=subprocess.PIPE, stderr=subprocess.DEVNULL) as process:
        try:
            resource.prlimit(process.pid, resource.RLIMIT_CPU, (seconds, seconds))
            svg, _ = process.communicate(text.encode("utf-8"), MOST_SECONDS)
        except BaseException:
            process.kill()
            raise
    return process.returncode, svg.decode("utf-8", "replace")


def cleaned(svg):
    """The element alone, without names that other graphs of the page have too, and with colours that the page chooses."""
    svg = svg[svg.index("<svg"):]
    svg = re.sub(r"<!--.*?-->\n?", "", svg, flags=re.S)
    svg = re.sub(r"<title>[^<]*</title>\n?", "", svg)
    svg = re.sub(r' id="[^"]*"', "", svg)
    svg = re.sub(r' (fill|stroke)="(black|transparent)"', "", svg)
    svg = re.sub(r' xmlns(:xlink)?="[^"]*"', "", svg)
    svg = re.sub(r' font-family="[^"]*"', "", svg)
    return re.sub(r'<svg width="(\d+)pt" height="(\d+)pt"', scaled, svg, count=1).strip()


def scaled(found):
    """The size in pixels, and hidden from readers, who get the table."""
    return f'<svg width="{int(found[1]) * 4 // 3}" height="{int(found[2]) * 4 // 3}" aria-hidden="true" focusable="false"'
