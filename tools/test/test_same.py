"""Tries what `make check-same` compares hz_same with: `python3 test_same.py TOOLS`. Pairs of machines with a name each have the answer that is
written beside them, and on made pairs the search finds what the one of extraction/same.py finds, which is another."""
import sys

sys.dont_write_bytecode = True
sys.path.insert(0, sys.argv[1])
from building.comparing import trace_of  # noqa: E402
from extraction.same import difference  # noqa: E402
from same_check.cases import CASES  # noqa: E402
from same_check.machines import machine_of  # noqa: E402
from same_check.making import Maker  # noqa: E402
from same_check.searching import TooMany, answer  # noqa: E402

WORDS, PAIRS, MADE = ("one", "other"), 20000, 300


def answered(first, second):
    """What the search says; None of too many pairs."""
    try:
        return answer(first, second, WORDS, PAIRS)
    except TooMany:
        return None


def named_cases():
    """Pairs whose answer is written beside them, and that are small."""
    wrong = 0
    for name, pair, wanted in CASES:
        found = answered(*pair())
        if wanted and found not in (None, wanted):
            print(f"{name}: {found}, wanted {wanted}")
            wrong += 1
    return wrong


def made_pairs():
    """Pairs with the same names, on which two searches agree."""
    wrong, seen, maker = 0, {0: 0, 1: 0}, Maker(5)
    for number in range(MADE):
        first, second = maker.pair()
        texts = first.text(), second.text()
        if [machine_of(text).text() for text in texts] != [made.text() for made in (plain(first), plain(second))]:
            print(f"pair {number}: read otherwise than written")
            wrong += 1
        found = answered(first, second)
        if found is None or "alone" in found[1]:
            continue
        events = difference(*texts, PAIRS)
        lines = [line for line in found[1].split("\n")[:-1] if not line.startswith(";")]
        seen[found[0]] += 1
        if (trace_of(events) if events else ["same"]) != lines:
            print(f"pair {number}: {lines}, and the other search finds {events}")
            wrong += 1
    print(f"test_same.py: {seen[0]} pairs are the same, {seen[1]} are not")
    return wrong + (0 in seen.values())


def plain(machine):
    """A machine without what says nothing of it."""
    machine.has_counts, machine.version = False, 0
    return machine


if __name__ == "__main__":
    sys.exit(1 if named_cases() + made_pairs() else 0)
