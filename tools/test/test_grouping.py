"""Whether the search for sets of groups finds the fewest states: `python3 test_grouping.py TOOLS`.

The states of each set are drawn. Of few groups all partitions are looked at by another way; of more the sets that are found have no more
states than all groups apart, and than all together.
"""
import math
import random
import sys

sys.path.insert(0, sys.argv[1])

from extraction.grouping import FEW, Search

DRAWS = 300


def partitions(groups):
    """All ways to put groups into sets."""
    if not groups:
        yield []
        return
    for made in partitions(groups[1:]):
        yield [[groups[0]], *made]
        for at, own in enumerate(made):
            yield [*made[:at], [groups[0], *own], *made[at + 1:]]


def drawn(draw, few):
    """A search over groups that one class takes together, and their number."""
    number = draw.randint(2, few) if few <= FEW else draw.randint(FEW + 1, few)
    states = {}

    def count(groups):
        if groups not in states:
            states[groups] = None if draw.random() < 0.3 else draw.randint(1, 99)
        return states[groups]
    together = (1 << number) - 1
    return Search(count, {1 << at: together for at in range(number)}), number


def wrong_of(draw, few):
    """What is wrong with the sets that a search finds, or None."""
    search, number = drawn(draw, few)
    found, groups = search.best(), [1 << at for at in range(number)]
    if sorted(found) != sorted(set(found)) or sum(found) != sum(groups):
        return f"{found} are no sets of {number} groups"
    ends = [groups, [sum(groups)]] if number > FEW else [[sum(own) for own in sets] for sets in partitions(groups)]
    least, value = min(map(search.value, ends)), search.value(found)
    return None if value == least or number > FEW and value < least else f"{found} have {value} states, and {least} can be had"


def apart():
    """Groups that no class takes together are sets of their own, whatever they have together."""
    search = Search(lambda groups: 1, {1: 3, 2: 3, 4: 4})
    return search.best() == [3, 4] and math.inf not in search.known.values()


def main():
    draw = random.Random(1)
    wrong = [one for at in range(DRAWS) for one in [wrong_of(draw, FEW if at % 2 else 9)] if one]
    print(f"searches for sets of groups: {DRAWS}, {len(wrong)} wrong" + "".join(f"\n  {one}" for one in wrong[:9]))
    return 1 if wrong or not apart() else 0


if __name__ == "__main__":
    sys.exit(main())
