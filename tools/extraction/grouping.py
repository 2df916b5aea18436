"""Looks for the sets of groups that have the fewest states together.

The groups of an automaton are the finest into which it may be cut, and each set of them may be an automaton. Groups that keep each other in
step may have fewer states together than apart; groups that no class takes together never do. A set is a number with the bit of each group.
"""
import math

MOST, FEW = 24, 5


def members(groups):
    """The groups of a set."""
    while groups:
        first = groups & -groups
        yield first
        groups ^= first


def subsets(groups):
    """The sets of some of the groups, from none to all."""
    found = 0
    while True:
        yield found
        if found == groups:
            return
        found = (found - groups) & groups


class Search:
    """The sets of groups of an automaton. `count` gives the least states of a set, or None if they are not counted; `beside` has of each group
    those that a class takes together with it."""

    def __init__(self, count, beside):
        self.count, self.beside, self.known = count, beside, {}

    def states(self, groups):
        """The least states of a set; infinite if they are not counted."""
        if groups not in self.known:
            found = self.count(groups)
            self.known[groups] = math.inf if found is None else found
        return self.known[groups]

    def value(self, sets):
        """How many of the sets are not counted, and the sum of the states of the others: the less, the better."""
        counts = [self.states(groups) for groups in sets]
        return counts.count(math.inf), sum(count for count in counts if count < math.inf)

    def around(self, groups):
        """The groups that classes take together with some of a set."""
        found = 0
        for group in members(groups):
            found |= self.beside[group]
        return found

    def parts(self, groups):
        """The sets into which a set falls, if only groups that a class takes together are kept together."""
        found = []
        while groups:
            part, more = 0, groups & -groups
            while more:
                part |= more
                more = self.around(more) & groups & ~part
            found.append(part)
            groups ^= part
        return found

    def best(self):
        """Of all groups the sets with the fewest states that are found."""
        return [best for part in self.parts(sum(self.beside)) for best in self.best_of(part)]

    def best_of(self, groups):
        """The same of groups that classes keep together."""
        finest = list(members(groups))
        if len(finest) > MOST:
            return min([groups], finest, key=self.value)
        found = [self.improved(finest), self.improved([groups])]
        if len(finest) <= FEW:
            found.append(self.least_of(groups, {0: []}))
        return min(found, key=self.value)

    def improved(self, sets):
        """Sets after steps each of which leaves fewer states, until there is none."""
        while True:
            step = next((step for step in self.steps(sets) if self.value(step[1]) < self.value(step[0])), None)
            if step is None:
                return sets
            sets = [groups for groups in sets if groups not in step[0]] + step[1]

    def steps(self, sets):
        """The ways to change one set or two, those with most states first: the sets before and after."""
        ordered = sorted(sets, key=self.states, reverse=True)
        for at, one in enumerate(ordered):
            for group in members(one):
                if group != one:
                    yield [one], [group, *self.parts(one ^ group)]
            for other in ordered[at + 1:]:
                if self.around(one) & other:
                    yield [one, other], [one | other]
                    yield from self.moves(one, other)
                    yield from self.moves(other, one)

    def moves(self, one, other):
        """The ways to take a group from a set to another one."""
        for group in members(one & self.around(other)):
            if group != one:
                yield [one, other], [other | group, *self.parts(one ^ group)]

    def least_of(self, groups, known):
        """The sets with the fewest states of all into which groups can be put."""
        if groups in known:
            return known[groups]
        first, found, least = groups & -groups, None, None
        for others in subsets(groups ^ first):
            own = first | others
            if len(self.parts(own)) > 1:
                continue
            made = [own, *self.least_of(groups ^ own, known)]
            value = self.value(made)
            if found is None or value < least:
                found, least = made, value
        known[groups] = found
        return found
