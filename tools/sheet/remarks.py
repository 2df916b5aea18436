"""What a reader of a description should look at: classes, units and statements that do nothing, or that nothing tells apart."""
from extraction.forms import Form

from .machines import Budget

# of conditions that are evaluated, for one class and for all
MOST_OF_CLASS, MOST_STEPS = 200000, 2000000


class Condition:
    """A condition, ready to be tried on values of some attributes."""

    def __init__(self, form):
        self.head = form.head()
        self.parts = [Condition(part) for part in form[1:] if isinstance(part, Form)]
        self.size = 1 + sum(part.size for part in self.parts)
        if self.head == "const_int":
            self.is_always = int(form[1]) != 0
        if self.head == "eq_attr":
            text = str(form[2]).strip()
            self.name, self.is_other = str(form[1]), text.startswith("!")
            self.values = {value.strip() for value in text.removeprefix("!").split(",")}

    def tests(self):
        """The tests of attributes in it."""
        return [self] if self.head == "eq_attr" else [test for part in self.parts for test in part.tests()]

    def judged(self, values):
        """Whether it holds, and None if that depends on an attribute without a value; and the first of these attributes."""
        if self.head == "const_int":
            return self.is_always, None
        if self.head == "eq_attr":
            return ((values[self.name] in self.values) != self.is_other, None) if self.name in values else (None, self.name)
        if self.head == "not":
            holds, missing = self.parts[0].judged(values)
            return None if holds is None else not holds, missing
        decides, first = self.head == "ior", None
        for part in self.parts:
            holds, missing = part.judged(values)
            if holds is decides:
                return decides, None
            first = first or missing
        return (None, first) if first else (not decides, None)


def values_apart(values, tests):
    """Of values of an attribute those that its tests tell apart, the first of each kind."""
    found = {}
    for value in values:
        found.setdefault(tuple(value in test.values for test in tests), value)
    return list(found.values())


def can_hold(description, form, budget):
    """Whether some values of attributes meet a condition; None if too many would have to be tried."""
    condition, tests, own = Condition(form), {}, Budget(MOST_OF_CLASS)
    for test in condition.tests():
        tests.setdefault(test.name, []).append(test)
    choices = {name: values_apart(description.attributes[name].values, found) for name, found in tests.items()}
    waiting = [{}]
    while waiting:
        if not budget.left(condition.size) or not own.left(condition.size):
            return None
        values = waiting.pop()
        holds, missing = condition.judged(values)
        if holds:
            return True
        if holds is None:
            waiting += [{**values, missing: value} for value in reversed(choices[missing])]
    return False


def unmet(description):
    """The classes whose condition no instruction can meet, and those of which that was not found out."""
    budget, found = Budget(MOST_STEPS), {True: [], False: [], None: []}
    for one in description.classes:
        found[can_hold(description, one.condition, budget)].append(one.name)
    return found[False], found[None]


def untaken(description):
    """The units that no alternative of a class takes."""
    taken = 0
    for one in description.classes:
        taken |= one.units()
    return [unit for unit in description.units if not unit.bit & taken]


def idle_statements(description):
    """The set statements that name units of no class, each with these units."""
    idle = {unit.name for unit in untaken(description)}
    found = []
    for statement in description.statements:
        names = [name for name in dict.fromkeys(statement.units + [name for pattern in statement.patterns for name in pattern])
                 if name in idle]
        if names:
            found.append((statement, names))
    return found
