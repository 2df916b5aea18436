"""The first screen of docs/THEOREM.md, the three promises in the words of ten definitions; and lists of definitions by commands."""
import os

TITLE = "# What one must read to believe `run`"

# The ten definitions of the first screen: each by its module, its name, and what it says.
CORE = (
    ("hz_description_model.specs.Reservations.Alternatives", "alternatives_of",
     "an expression has these alternatives in this order, if each name's are known: sets of pairs of a unit and a cycle"),
    ("hz_pipeline_model.specs.Pipelines.Pipelines", "pipeline_with",
     "what a description means to a replay: the alternatives of each class, the set statements, the treatment"),
    ("hz_pipeline_model.specs.Accepting.Replay", "calendar",
     "all pairs that issues reserve by their choices, in absolute cycles"),
    ("hz_description_model.specs.Reservations.Sets", "Fits",
     "pairs that are added at a cycle fit a calendar: none is there yet, and each set statement allows each cycle"),
    ("hz_pipeline_model.specs.Accepting.Replay", "Accepted",
     "for some choices, each issue's alternative fits the calendar of the issues before it; without `ndfa` it is the first that fits"),
    ("hz_pipeline_model.specs.Accepting.Replay", "FirstRefused",
     "the place of the last event of the shortest prefix that is not accepted"),
    ("hz_pipeline_model.specs.Accepting.Asking", "IsHeld",
     "a unit is reserved in the present cycle after events"),
    ("hz_block_model.specs.Dependences.Dependences", "depends",
     "one instruction depends on another; beside it `cost`, in cycles"),
    ("hz_block_model.specs.Running.States", "run",
     "the state after the instructions of a block in some order"),
    ("hz_block_model.specs.Scheduled.BlockSchedules", "KeepsBlock",
     "slots keep a block: the five lines of the third promise"),
)

PROMISES = """Write `A ⊢ s, t` for: `run` on the words A ends with status s and writes the text t. Let `d`, `t`, `b` be the words of files that hold a
description, a trace and a block, all without a fault and within the limits; p = `pipeline_with` of the description.

```
1  replay d t ⊢ 0, .. accepted ..           ⟺  Accepted p events
   replay d t ⊢ 1, .. refused line l class  ⟺  FirstRefused p events i,  l and class are those of event i
   an ask before that writes `reserved`     ⟺  IsHeld p (the events before it) (its unit)

2  compile d ⊢ 0, k                         ⟹  for every trace t, right or wrong, every s and x:
                                               walk k t ⊢ s, x  ⟺  replay d t ⊢ s, x

3  schedule d b ⊢ 0, slots                  ⟹  each instruction of b is in one slot, cycles do not fall
                                               depends b i j  ⟹  cycle i + cost b i j ≤ cycle j
                                               Accepted p (the trace of the slots)
                                               run b (the order of the slots) s = run b (the order of the source) s,  for every state s
                                               replay d t ⊢ 0, ..  for every t that says the trace of the slots
```

They are the cases `replay` of `JudgesOrder` in the clauses [exact](#exact) and [complete](#complete), and the cases `KeepsTables` and
`KeepsSchedule` of [promised](#promised).

**Premises.** The files are known to the contract, no write failed, and no read failed but the opening of a name that is not there. Status 5
(want of memory) may come in place of any answer. In 2 the text `k` is within its limit of bytes, which holds unless both `v` and
`no-minimization` are given. In 3 `t` is within its limit of bytes.

**The host's files are not known to any contract**, nor is standard output. Over them the promises are of the same generic code: `run` is one
function for all kinds of files and sinks, proved once.

**They rest on** the toolchain and the C library, and on these ten definitions saying what GCC Internals says. Laws say them again in other
words: `compiled_machines_are_descriptions`, `automata_choose_by_themselves`, `walk_is_replay`, `legal_schedules_keep_the_block` and those of
the [last section](#laws-that-say-it-again-in-other-words)."""

def core_rows(library):
    """The ten definitions with their places."""
    rows = []
    for module, name, says in CORE:
        item = library.find("Rattle." + module, name)[0]
        path = item.source.path
        rows.append((f"`{name}`", f"[{os.path.basename(path)[:-5]}](../{path}) {item.place()}", says))
    return rows


def first_screen(library, table):
    """The first screen, up to the introduction. `table` makes a table of Markdown."""
    return "\n".join([TITLE, "", PROMISES, ""] + table(("definition", "place", "says"), core_rows(library)))


def place_in(path):
    """A file by its folder and name inside the `specs` or `src` of its crate."""
    return "/".join(path.split("/")[3:]).rsplit(".", 1)[0]


def names_in_code(names):
    """Names, separated by spaces."""
    return "`" + " ".join(names) + "`"


def names_of(items):
    """The names of definitions of one file, in the order of their lines."""
    return names_in_code(item.name for item in sorted(items, key=lambda item: min(item.numbers())))


def users_of(reached, items):
    """Definitions by the commands that need them, those of most commands first."""
    groups = {}
    for item in items:
        groups.setdefault(tuple(name for name in reached if item in reached[name]), []).append(item)
    order = list(reached)
    return dict(sorted(groups.items(), key=lambda group: (-len(group[0]), [order.index(name) for name in group[0]])))


def group_title(commands, every):
    """The commands of a list."""
    others = [name for name in every if name not in commands]
    if not commands:
        return "The clause by itself"
    if not others:
        return "All commands"
    if len(others) < 4:
        return "All but " + ", ".join(others)
    return ", ".join(commands)


def command_lists(order, reached, items, by_file):
    """Each definition in one list, by the commands that need it. `order` has the files from first to last, `reached` the definitions of each
    command by its name."""
    groups = {commands: by_file(found) for commands, found in users_of(reached, items).items()}
    most = {path: max(groups, key=lambda commands: len(groups[commands].get(path, ()))) for path in order}
    lines = []
    for commands, files in groups.items():
        crates = {}
        for path in (path for path in order if path in files):
            names = "" if most[path] == commands else f" ({names_of(files[path])})"
            crates.setdefault(path.split("/")[1], []).append(place_in(path) + names)
        lists = "; ".join(f"`{crate}` " + ", ".join(found) for crate, found in crates.items())
        lines.append(f"- **{group_title(commands, reached)}**: {lists}")
    return lines
