"""Whether tables texts answer alike: `python3 same_tables.py TOOLS FIRST SECOND [cut]` writes `same`, or the least events that tell them
apart. With `cut` each automaton of the first is compared with its parts in the second."""
import sys

sys.path.insert(0, sys.argv[1])
from extraction.same import difference, difference_of_cut  # noqa: E402

first, second = (open(path, encoding="ascii").read() for path in sys.argv[2:4])
if sys.argv[4:] == ["cut"]:
    found = difference_of_cut(first, second)
    print(f"{found[0]}: {'; '.join(found[1])}" if found else "same")
else:
    print("; ".join(difference(first, second) or ["same"]))
