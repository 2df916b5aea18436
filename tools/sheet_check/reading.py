"""Reads what a page shows out of its document: tables with their captions, cards of classes, facts, headings."""
import dataclasses
import html.parser
import typing

CLOSERS = {"td": ("td", "th"), "th": ("td", "th"), "tr": ("td", "th", "tr"), "li": ("li",), "tbody": ("td", "th", "tr", "tbody", "thead"),
           "thead": ("caption",), "dt": ("dt", "dd"), "dd": ("dt", "dd")}
EMPTY = {"meta", "link", "br", "input", "img", "hr", "path", "polygon", "ellipse"}


@dataclasses.dataclass
class Node:
    """An element: its name, its attributes, and what is in it."""
    name: str
    attributes: typing.Dict[str, str]
    inside: list = dataclasses.field(default_factory=list)

    def walk(self):
        """It and all elements in it."""
        yield self
        for part in self.inside:
            if isinstance(part, Node):
                yield from part.walk()

    def text(self):
        """Its text, white space as one space; what only readers get is left out."""
        return " ".join(self.raw().split())

    def raw(self):
        if "sr" in self.classes():
            return ""
        return "".join(part.raw() if isinstance(part, Node) else part for part in self.inside)

    def classes(self):
        return (self.attributes.get("class") or "").split()

    def all(self, name, of_class=None):
        """The elements of this name, and of this class, in it."""
        return [node for node in self.walk() if node.name == name and (of_class is None or of_class in node.classes())]

    def first(self, name, of_class=None):
        found = self.all(name, of_class)
        return found[0] if found else None

    def rows(self):
        """The rows of a table, each the texts of its cells."""
        return [[cell.text() for cell in row.inside if isinstance(cell, Node) and cell.name in ("td", "th")] for row in self.all("tr")]


class Reader(html.parser.HTMLParser):
    """Makes nodes of a document. End tags that HTML lets out are put in."""

    def __init__(self):
        super().__init__()
        self.root = Node("document", {})
        self.open = [self.root]

    def handle_starttag(self, name, attributes):
        while self.open[-1].name in CLOSERS.get(name, ()) or (name in ("tr", "tbody", "thead") and self.open[-1].name == "caption"):
            self.open.pop()
        node = Node(name, dict(attributes))
        self.open[-1].inside.append(node)
        if name not in EMPTY:
            self.open.append(node)

    def handle_startendtag(self, name, attributes):
        self.open[-1].inside.append(Node(name, dict(attributes)))

    def handle_endtag(self, name):
        if any(node.name == name for node in self.open):
            while self.open.pop().name != name:
                pass

    def handle_data(self, data):
        self.open[-1].inside.append(data)


def read_page(text):
    """The document of a page."""
    reader = Reader()
    reader.feed(text)
    reader.close()
    return reader.root


def find(root, identity):
    """The element of this identity."""
    return next((node for node in root.walk() if node.attributes.get("id") == identity), None)


def cycles_of(label):
    """The cycles of a column, by its head: one, or from the first to the last."""
    first, _, last = label.partition("–")
    return range(int(first), int(last or first) + 1)


@dataclasses.dataclass
class Shown:
    """What a page shows, as plain values."""
    matrix: typing.Dict[str, dict]
    rates: typing.Dict[str, tuple]
    groups: typing.List[list]
    classes: typing.Dict[str, dict]
    automata: typing.List[tuple]
    blocks: typing.Dict[str, dict]
    traces: typing.Dict[str, dict]


def pairs_of_chart(table):
    """The pairs of a cycle and a unit that a chart marks."""
    rows = table.rows()
    columns = [cycles_of(label) for label in rows[0][1:]]
    return {(cycle, row[0]) for row in rows[1:] for cell, cycles in zip(row[1:], columns) if cell == "X" for cycle in cycles}


def pairs_of_line(line):
    """The same of an alternative that is a line of text."""
    if line == "no unit":
        return set()
    found = set()
    for part in line.split("; "):
        unit, cycles = part.rsplit(" ", 1)
        found |= {(cycle, unit) for run in cycles.split(",") for cycle in cycles_of(run)}
    return found


def class_of(card):
    """What a card shows of a class."""
    facts = {part.first("dt").text(): part.first("dd").text() for part in card.first("dl").all("div")}
    alternatives = {}
    for table in card.all("table", "chart"):
        alternatives[int(table.first("caption").text().split()[1])] = pairs_of_chart(table)
    for line in card.all("p", "empty"):
        alternatives[int(line.text().split()[1])] = set()
    for lines in card.all("ol", "lines"):
        for item in lines.all("li"):
            alternatives[int(item.attributes["value"])] = pairs_of_line(item.text())
    return {"facts": facts, "alternatives": alternatives}


def held_of(section):
    """For a cycle and a unit what the charts of a section show there."""
    held, marks = {}, {}
    for table in section.all("table", "timeline"):
        columns = [cycles_of(label) for label in table.rows()[0][1:]]
        for part in table.all("tbody"):
            into = held if "units" in part.classes() else marks
            for row in part.rows():
                for cell, cycles in zip(row[1:], columns):
                    into.update({(cycle, row[0]): cell for cycle in cycles if cell})
    return held, marks


def block_of(section):
    """What a section shows of a block."""
    held, marks = held_of(section)
    rows = section.first("table", "insns").rows()[1:]
    facts = {part.first("dt").text(): part.first("dd").text() for part in section.first("dl", "tiles").all("div")}
    kernel = section.first("table", "kernel")
    return {"facts": facts, "rows": rows, "held": held, "marks": marks, "kernel": kernel.rows() if kernel else []}


def trace_of(section):
    held, _ = held_of(section)
    return {"answer": section.first("p", "answer").text(), "held": held}


def named(node):
    return node.first("h2").text().split(" ", 1)[1]


def shown_by(text):
    """What a page shows."""
    root = read_page(text)
    rows = find(root, "matrix").rows()
    heads = rows[0][3:]
    label = {index: row[0] for index, row in enumerate(rows[1:])}
    cards = find(root, "classes").all("article", "card")
    return Shown(
        matrix={label[at]: dict(zip(heads, row[3:])) for at, row in enumerate(rows[1:])},
        rates={label[at]: tuple(row[1:3]) for at, row in enumerate(rows[1:])},
        groups=[[code.text() for code in item.all("code")] for part in root.all("ul", "groups") for item in part.all("li")],
        classes={card.first("h3").text(): class_of(card) for card in cards},
        automata=[tuple(row) for row in find(root, "summary").first("table").rows()[1:]],
        blocks={named(section): block_of(section) for section in root.all("section", "block")},
        traces={named(section): trace_of(section) for section in root.all("section", "trace")})
