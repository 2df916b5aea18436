"""Changes of what hz's profile cannot say, one pass for each kind, each change reported."""
import dataclasses
import re

from . import wildcards
from .expressions import Wrong, is_above, with_single_repeats
from .forms import Fault, Form, Place, Text
from .items import Attribute, Bypass, Class, Options, Reservation, Units, Values, trimmed, without_gaps
from .names import BLANKS, brief, is_name, pieces, shown, words
from .wildcards import Matcher

NOT_BUILT = ["collapse-ndfa"]
GUARDS = ["store_data_bypass_p"]
UNKNOWN = "unknown"
NUMBER = re.compile(r"-?[0-9]+")
DEPTH = 64


@dataclasses.dataclass(frozen=True)
class Change:
    """What was changed: the form's place, the kind and words for a reader."""
    place: Place
    kind: str
    what: str

    def __str__(self):
        return shown(f"{self.place}: {self.kind}: {self.what}")


class Reported(list):
    """The changes so far."""

    def tell(self, item, kind, what):
        self.append(Change(item.place, kind, what))
        item.notes.append(what)


def of_kind(items, kind):
    return [item for item in items if isinstance(item, kind)]


def tell_left(items, reported):
    """What was left out when the items were read."""
    for item in items:
        if not isinstance(item, (Attribute, Values)):
            for kind, what in item.left:
                reported.tell(item, kind, what)
    return items


def never():
    """The condition that never holds."""
    form = Form(None, "(")
    form += ["const_int", "0"]
    return form


def tested_values(text):
    """The values of a test of an attribute, and whether it is of all others."""
    negated = text.strip(BLANKS).startswith("!")
    return (text.strip(BLANKS)[1:] if negated else text), negated


def is_test(form):
    """Whether a form tests an attribute, with strings for its name and its values."""
    return form.head() == "eq_attr" and len(form) == 3 and all(isinstance(part, Text) for part in form[1:])


def cleaned(condition, left):
    """A condition whose tests have no white space round a name and no empty value; `left` takes what is left out."""
    if not isinstance(condition, Form):
        return condition
    made = Form(condition.place, condition.bracket)
    if is_test(condition):
        values, negated = tested_values(condition[2])
        values = ", ".join(without_gaps(values, left))
        made += [condition[0], Text(trimmed(condition[1], left)), Text(f"!{values}" if negated else values)]
    else:
        made += [cleaned(part, left) for part in condition]
    return made


def clean_conditions(items, reported):
    """Conditions lose white space round names, and empty values."""
    for item in of_kind(items, Class):
        left = []
        item.condition = cleaned(item.condition, left)
        for kind, what in left:
            reported.tell(item, kind, f"in the condition of {item.name}: {what}")
    return items


def odd_test(condition, depth=2):
    """The first test in a condition that hz can't say, or None. `depth` is how many brackets are open in it."""
    if not isinstance(condition, Form):
        return f"`{brief(condition)}`"
    if depth > DEPTH:
        return f"more than {DEPTH} open brackets"
    head, operands = condition.head(), condition[1:]
    if head in ("and", "ior") and len(operands) >= 2 or head == "not" and len(operands) == 1:
        return next((odd for odd in (odd_test(part, depth + 1) for part in operands) if odd), None)
    if is_test(condition) and is_name(operands[0]) and all(is_name(value) for value in pieces(tested_values(operands[1])[0])):
        return None
    if head == "const_int" and len(operands) == 1 and is_integer(operands[0]):
        return None
    return brief(head) if head else "a vector"


def is_integer(operand):
    """Whether an operand is a number that hz reads."""
    if type(operand) is not str or not NUMBER.fullmatch(operand):
        return False
    return not is_above(operand.lstrip("-"), 2 ** 63 if operand.startswith("-") else 2 ** 64 - 1)


def change_conditions(items, reported):
    """A condition with a test that hz can't say never holds."""
    for item in of_kind(items, Class):
        odd = odd_test(item.condition)
        if odd:
            reported.tell(item, "condition", f"the condition of {item.name} has {odd}")
            item.condition = never()
    return items


def change_repeats(items, reported):
    """An element with two repeats, one after the other, gets parentheses."""
    for item in of_kind(items, (Reservation, Class)):
        try:
            changed = with_single_repeats(item.expression)
        except Wrong as wrong:
            raise Fault(item.place, str(wrong)) from wrong
        if changed:
            reported.tell(item, "repeat", f"was {' '.join(words(item.expression))}")
            item.expression = changed
    return items


def change_queries(items, reported):
    """A query unit is a unit under `ndfa`, where no state can be asked for one."""
    ndfa = any("ndfa" in item.names for item in of_kind(items, Options))
    for item in of_kind(items, Units):
        if item.query and ndfa:
            reported.tell(item, "query", f"query units {', '.join(item.names)} under ndfa")
            item.query = False
    return items


def change_options(items, reported):
    """An option that hz doesn't have goes, and so does a form without options."""
    for item in of_kind(items, Options):
        for name in set(item.names) & set(NOT_BUILT):
            reported.tell(item, "option", name)
            item.names.remove(name)
    return [item for item in items if not isinstance(item, Options) or item.names]


def change_bypasses(items, reported):
    """A bypass with a guard that hz doesn't have goes; wildcards are expanded."""
    matcher, kept = Matcher(item.name for item in of_kind(items, Class)), []
    for item in items:
        if not isinstance(item, Bypass):
            kept.append(item)
        elif item.guard is not None and item.guard not in GUARDS:
            reported.tell(item, "guard", f"the bypass is guarded by {item.guard}")
        else:
            item.outs = expanded(item, item.outs, matcher, reported)
            item.ins = expanded(item, item.ins, matcher, reported)
            kept += [item] if item.outs and item.ins else []
    return kept


def expanded(bypass, patterns, matcher, reported):
    """The classes of a list in a bypass, each once; as GCC does, a name with a wildcard is matched as names of files are."""
    found = []
    for pattern in patterns:
        if any(mark in pattern for mark in wildcards.MARKS):
            matching = matched(bypass, pattern, matcher)
            reported.tell(bypass, "wildcard", f"{pattern} stands for {', '.join(matching) or 'no class'}")
            found += matching
        else:
            found.append(pattern)
    return list(dict.fromkeys(found))


def matched(bypass, pattern, matcher):
    """The classes that a pattern of a bypass matches. What all patterns stand for is bounded before it is written out."""
    try:
        return matcher.matching(pattern)
    except wildcards.Unclear as unclear:
        raise Fault(bypass.place, f"`{brief(pattern)}` is no wildcard whose meaning is clear") from unclear
    except wildcards.TooMuch as too_much:
        raise Fault(bypass.place, f"`{brief(pattern)}` stands for too much") from too_much


def tests_of_attributes(condition):
    """Each attribute that a condition names, with the values there that are names."""
    if not isinstance(condition, Form):
        return
    if is_test(condition) and is_name(condition[1]):
        yield str(condition[1]), [value for value in pieces(tested_values(condition[2])[0]) if is_name(value)]
    for part in condition[1:]:
        yield from tests_of_attributes(part)


def named_attributes(items):
    """Of each attribute that a condition names: the values that conditions have, and the first class that names it."""
    values, first = {}, {}
    for item in of_kind(items, Class):
        for name, given in tests_of_attributes(item.condition):
            values.setdefault(name, {}).update(dict.fromkeys(given))
            first.setdefault(name, item)
    return values, first


def enumerations_in(sources):
    """The values of each enumeration: a later definition of one name adds its own."""
    found = {}
    for item in of_kind(sources, Values):
        found.setdefault(item.name, []).extend(item.names)
    return found


def add_attributes(items, sources, reported):
    """Each attribute that a condition names is defined, with the values in the files, before all else."""
    defined = {item.name: item for item in of_kind(reversed(sources), Attribute)}
    enumerations = enumerations_in(sources)
    values, first = named_attributes(items)
    made = [complete_attribute(defined.get(name) or Attribute(first[name].place, name, [], None, None),
                               enumerations, values[name], name in defined, reported) for name in values]
    return made + [item for item in items if not isinstance(item, (Attribute, Values))]


def complete_attribute(item, enumerations, tested, is_defined, reported):
    """An attribute with the values that conditions test, and a default."""
    own = dict.fromkeys(item.values + enumerations.get(item.enumeration, []))
    default = item.default if item.default is not None and is_name(item.default) else None
    whole = Attribute(item.place, item.name, [], None, default or UNKNOWN)
    whole.values = list(dict.fromkeys([*own, *tested, whole.default]))
    for kind, what in item.left:
        reported.tell(whole, kind, what)
    if not is_defined:
        reported.tell(whole, "attribute", f"{item.name} is not defined")
    elif default is None:
        reported.tell(whole, "attribute", f"the default of {item.name} is no const_string")
    elif len(whole.values) > len(own):
        reported.tell(whole, "attribute", f"{item.name} lacks {', '.join(whole.values[len(own):])}")
    return whole


def change_all(items, sources, reported):
    """The items with all changes; `sources` are all that the files define."""
    items = clean_conditions(tell_left(items, reported), reported)
    items = add_attributes(items, sources, reported)
    for change in (change_conditions, change_queries, change_options, change_repeats, change_bypasses):
        items = change(items, reported)
    return items
