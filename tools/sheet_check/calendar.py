"""What a page has to show, by calendars of units in cycles (extraction/calendars.py), which know no tables and no states."""
from extract import Reader
from extraction.calendars import Calendars
from extraction.changes import of_kind
from extraction.expressions import Expander, tree_of
from extraction.items import Class, Options, Reservation, Units

# in so many cycles all that was reserved is past
LONGEST = 512


class Expected:
    """Waits, rates and alternatives of the classes of a description."""

    def __init__(self, path):
        self.items = Reader().items(path, False)
        self.is_any = any("ndfa" in item.names for item in of_kind(self.items, Options))
        self.calendars = Calendars(self.items, self.is_any)
        self.classes = [item.name for item in of_kind(self.items, Class)]
        self.latency = {item.name: item.latency for item in of_kind(self.items, Class)}

    def alternatives(self):
        """For each class the pairs of its alternatives, in their order."""
        automaton = {name: item.automaton for item in of_kind(self.items, Units) for name in item.names}
        expander = Expander(automaton, {item.name: tree_of(item) for item in of_kind(self.items, Reservation)})
        return {item.name: [set(one.pairs) for one in expander.of(tree_of(item))] for item in of_kind(self.items, Class)}

    def can_issue(self, place):
        """Whether each calendar takes an issue."""
        return all(any(part.fits(state, added) for state in part.states for added in part.lists[place]) for part in self.calendars.parts)

    def state(self):
        """What is reserved, without what is past."""
        return tuple(frozenset(stripped(state) for state in part.states) for part in self.calendars.parts)

    def waits(self, name):
        """The least number of cycles from an issue of a class to one of each class, None if there is none."""
        self.calendars.start()
        found = dict.fromkeys(self.classes)
        if not self.calendars.issue(self.classes.index(name)):
            return found
        left = set(range(len(self.classes)))
        for cycle in range(LONGEST + 1):
            fitting = {place for place in left if self.can_issue(place)}
            found.update({self.classes[place]: cycle for place in fitting})
            left -= fitting
            if not left or all(not any(state) for part in self.state() for state in part):
                break
            self.calendars.advance()
        return found

    def in_one_cycle(self, name):
        """How many issues of a class fit into one cycle; None if there is no end to them."""
        self.calendars.start()
        seen, count, place = set(), 0, self.classes.index(name)
        while self.state() not in seen:
            seen.add(self.state())
            if not self.calendars.issue(place):
                return count
            count += 1
        return None

    def goes_on(self, place, interval):
        """Whether issues at an interval are accepted without end."""
        self.calendars.start()
        seen = set()
        while self.state() not in seen:
            seen.add(self.state())
            if not self.calendars.issue(place):
                return False
            for _ in range(interval):
                self.calendars.advance()
        return True

    def interval(self, name):
        """The least interval of 1 or more at which a class can be issued without end, or None."""
        place = self.classes.index(name)
        return next((interval for interval in range(1, LONGEST + 2) if self.goes_on(place, interval)), None)


def stripped(state):
    """A state without empty cycles at its end."""
    end = len(state)
    while end and not state[end - 1]:
        end -= 1
    return state[:end]
