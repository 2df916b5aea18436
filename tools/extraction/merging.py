"""Makes one automaton of those that one alternation holds together."""
from .changes import of_kind
from .expressions import tree_of
from .items import Automata, Reservation, Units


class Joined:
    """Names in groups; each group is called by its first in the order of the file."""

    def __init__(self, names):
        self.order = {name: place for place, name in enumerate(names)}
        self.leader = {name: name for name in names}

    def find(self, name):
        while self.leader[name] != name:
            self.leader[name] = name = self.leader[self.leader[name]]
        return name

    def join(self, names):
        leaders = sorted({self.find(name) for name in names}, key=self.order.get)
        for leader in leaders[1:]:
            self.leader[leader] = leaders[0]
        return len(leaders) > 1


class Leading:
    """Where names lead to."""

    def __init__(self, items):
        self.automaton = {name: item.automaton for item in of_kind(items, Units) for name in item.names}
        self.names = {item.name: tree_of(item).names() for item in of_kind(items, Reservation)}

    def reached(self, names):
        """The names, and all names to which their expressions lead."""
        seen, waiting = set(), list(names)
        while waiting:
            name = waiting.pop()
            if name not in seen:
                seen.add(name)
                waiting += self.names.get(name, ())
        return seen

    def automata(self, names):
        """The automata of all units that names lead to."""
        return {self.automaton[name] for name in self.reached(names) if self.automaton.get(name)}


def alternations(items, classes, leading):
    """Each alternation in one of the classes, or in a reservation to which one leads: the item and the automata there."""
    used = leading.reached(name for item in classes for name in tree_of(item).names())
    for item in [item for item in of_kind(items, Reservation) if item.name in used] + classes:
        for node in tree_of(item).walk():
            if node.mark == "|":
                yield item, sorted(leading.automata(node.names()))


def merge_automata(items, classes, reported):
    """Automata that one alternation of the classes holds together become the first of them. Gives whether there are any."""
    joined = Joined(list(dict.fromkeys(name for item in of_kind(items, Automata) for name in item.names)))
    before = len(reported)
    for item, together in alternations(items, classes, Leading(items)):
        if joined.join(name for name in together if name in joined.order):
            reported.tell(item, "merge", f"{item.name} chooses between units of {', '.join(together)}")
    for item in of_kind(items, Units):
        if item.automaton in joined.order:
            item.automaton = joined.find(item.automaton)
    for item in of_kind(items, Automata):
        item.names = [name for name in item.names if joined.find(name) == name]
    return len(reported) > before


def without_empty(items):
    """The items but forms of automata that name none."""
    return [item for item in items if not isinstance(item, Automata) or item.names]
