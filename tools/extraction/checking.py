"""Reads what is written once more, by hz's own rules of forms: docs/FORMATS.md, "Descriptions" and "Forms of a description".

A text that passes is never answered with a fault of the text or of a form.
"""
import re

from .expressions import Wrong, is_above, is_doubled
from .forms import Fault, Form, Text
from .names import brief, is_name, pieces, words

TOKEN = re.compile(r'''[ \t\n\f\r]*(?:
    (?P<string> "(?: [\n\t !\#-\[\]-~] | \\[\n"\\] )*" )
  | (?P<open>   [(\[] )
  | (?P<close>  [)\]] )
  | (?P<word>   (?: (?!/\*) [!\#-'*-:<-Z\\^-z|~] )+ )
  | (?P<end>    \Z )
)''', re.X)
NUMBER = re.compile(r"-?[0-9]+")
CLOSES = {")": "(", "]": "["}
DEPTH = 64
LATENCY = 1000
OPTIONS = ["ndfa", "no-minimization", "stats", "v", "no-comb-vect", "time", "progress", "w"]
GUARD = "store_data_bypass_p"


class Odd(Exception):
    """What hz can't read in a form."""


def leaf(kind, token):
    """A string or a word."""
    if kind == "string":
        return Text(re.sub(r"\\(.)", lambda found: "" if found[1] == "\n" else found[1], token[1:-1], flags=re.S))
    if NUMBER.fullmatch(token) and is_above(token.lstrip("-"), 2 ** 63 if token[0] == "-" else 2 ** 64 - 1):
        raise Odd(f"the number {brief(token)} is too large")
    return token


def read(text):
    """The one form of a text."""
    at, top = 0, Form(None, "(")
    waiting = [top]
    while True:
        found = TOKEN.match(text, at)
        if not found:
            raise Odd(f"`{brief(text[at:].lstrip()[:1])}` is a byte that is not allowed there")
        kind, token, at = found.lastgroup, found[found.lastgroup], found.end()
        if kind == "end" and len(waiting) == len(top) == 1:
            return top[0]
        if kind == "open":
            waiting[-1].append(Form(None, token))
            waiting.append(waiting[-1][-1])
            if len(waiting) > DEPTH + 1:
                raise Odd(f"more than {DEPTH} brackets are open")
        elif kind == "end" or kind == "close" and waiting.pop().bracket != CLOSES[token]:
            raise Odd("the brackets do not match")
        elif kind != "close":
            waiting[-1].append(leaf(kind, token))


def string(value):
    if not isinstance(value, Text):
        raise Odd("there is no string")
    return str(value)


def name(value):
    if not is_name(string(value)):
        raise Odd(f"`{brief(value)}` is no name" if value else "a name is empty")


def names(value):
    for piece in pieces(string(value)):
        name(Text(piece))


def patterns(value):
    for pattern in pieces(string(value)):
        for word in words(pattern) or [""]:
            name(Text(word))


def number(value):
    if type(value) is not str or not NUMBER.fullmatch(value):
        raise Odd("there is no number")
    if value.startswith("-") or is_above(value, LATENCY):
        raise Odd(f"{brief(value)} is no number from 0 to {LATENCY}")


def expression(value):
    try:
        doubled = is_doubled(string(value))
    except Wrong as wrong:
        raise Odd(str(wrong)) from wrong
    if doubled:
        raise Odd("two `*` follow one element")


def guard(value):
    if string(value) != GUARD:
        raise Odd(f"the guard {brief(value)} is another")


def options(value):
    for option in pieces(string(value)):
        if option not in OPTIONS:
            raise Odd(f"the option `{brief(option)}` is not known")


def default(value):
    if not isinstance(value, Form) or value.head() != "const_string" or len(value) != 2:
        raise Odd("the default is no const_string")
    name(value[1])


def condition(value):
    head, operands = (value.head(), value[1:]) if isinstance(value, Form) else (None, [])
    if head == "const_int" and len(operands) == 1 and type(operands[0]) is str and NUMBER.fullmatch(operands[0]):
        return
    if head == "eq_attr" and len(operands) == 2:
        name(operands[0])
        listed = string(operands[1])
        names(Text(listed.lstrip()[1:] if listed.lstrip().startswith("!") else listed))
        return
    if not (head in ("and", "ior") and len(operands) >= 2 or head == "not" and len(operands) == 1):
        raise Odd("a condition has another shape")
    for operand in operands:
        condition(operand)


# Of each form the operands that it has, and after those the operand that may be left out.
SETS = {head: ([names, patterns], None) for head in ("presence_set", "final_presence_set", "absence_set", "final_absence_set")}
FORMS = {
    "define_automaton": ([names], None),
    "define_cpu_unit": ([names], name),
    "define_query_cpu_unit": ([names], name),
    "define_reservation": ([name, expression], None),
    "define_insn_reservation": ([name, number, condition, expression], None),
    "define_bypass": ([number, names, names], guard),
    "exclusion_set": ([names, names], None),
    "automata_option": ([options], None),
    "define_attr": ([name, names, default], None),
    **SETS,
}


def check_form(form):
    """Raises `Odd` if hz can't read a form."""
    head = form.head() if isinstance(form, Form) else None
    if head not in FORMS:
        raise Odd("the form is not known")
    wanted, last = FORMS[head]
    operands, rules = form[1:], wanted + [last] * (last is not None)
    if not len(wanted) <= len(operands) <= len(rules):
        raise Odd("the number of operands is another")
    for at, (rule, operand) in enumerate(zip(rules, operands), 1):
        try:
            rule(operand)
        except Odd as odd:
            raise Odd(f"operand {at} of {head}: {odd}") from odd


def check_item(item, text):
    """Raises a fault at the place of an item if hz can't read its text."""
    try:
        check_form(read(text))
    except Odd as odd:
        raise Fault(item.place, str(odd)) from odd
