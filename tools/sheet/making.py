"""Makes a page: asks the programs, holds the tool's own reading against their answers, and hands all to the templates."""
import os
import tempfile

from . import page, remarks
from .agreement import agreed, start_spelled, write
from .blocks import read_block
from .descriptions import Description
from .machines import Machine, Walks
from .programs import Stop, accepted, accepted_own
from .timelines import MOST_INSNS, Timeline, bound_in, kernel_in, schedule_in
from .traces import sheet_of
from .writing import read_bytes, shown

STATS = '\n(automata_option "stats")\n'
LONGEST = 4194304


class Page:
    """A page in the making."""

    def __init__(self, programs, desc, folder):
        self.programs, self.desc, self.folder = programs, desc, folder
        self.notes = []

    def start(self, blocks, traces):
        """Asks the programs all that is asked of the files as they are. The first answer that is none is said as it is."""
        compiled = self.programs.start("compile", self.desc)
        runs = [[self.programs.start(command, self.desc, block) for command in ("schedule", "bound", "modulo")] for block in blocks]
        replays = [self.programs.start("hz_why", self.desc, trace) for trace in traces]
        tables = accepted(compiled.result()).text
        blocks = [[run.result() for run in own] for own in runs]
        for schedule, bound, modulo in blocks:
            accepted(schedule)
            accepted(bound)
            if not is_too_long(modulo):
                accepted(modulo)
        return tables, blocks, [accepted(replay.result(), most=1) for replay in replays]

    def machine(self, tables, text):
        """The machine with its counts from before minimisation, which the option `stats` asks for."""
        if len(text) + len(STATS) > LONGEST:
            self.notes.append("The description has no room for the option stats, so there are no counts from before minimisation.")
            return Machine(tables)
        counted = accepted_own(self.programs.start("compile", write(self.folder, "counted.md", text + STATS)).result()).text
        machine = Machine(counted)
        if "stats " not in tables and counted_away(counted) != tables:
            raise Stop("hz compiles the description otherwise with the option stats; no page is written")
        return machine

    def block(self, description, path, answers):
        """What is shown of a block."""
        schedule, bound, modulo = answers
        insns = read_block(path, read_bytes(path))
        slots, length = schedule_in(schedule.text)
        found = {"path": shown(path), "insns": insns, "slots": slots, "length": length, "bound": bound_in(bound.text),
                 "kernel": None if is_too_long(modulo) else kernel_in(modulo.text), "limit": modulo.text.strip().encode("latin-1").decode("utf-8", "replace"),
                 "left": max(0, len(insns) - MOST_INSNS)}
        timeline = Timeline(self.programs, description, self.desc, insns, slots, self.folder)
        timeline.explain(found["bound"])
        holders = timeline.holders()
        found["bands"], found["cut"] = page.timeline_bands(timeline, holders, length)
        found.update(timeline=timeline, held=holders is not None)
        return found

    def trace(self, description, path, answer):
        """What is shown of a trace."""
        sheet = sheet_of(self.programs, description, self.desc, read_bytes(path), answer, self.folder)
        bands, cut = page.trace_bands(description, sheet) if sheet.holders else ([], None)
        return {"sheet": sheet, "path": shown(path), "bands": bands, "cut": cut}

    def context(self, blocks, traces):
        """All that the templates show."""
        tables, block_answers, trace_answers = self.start(blocks, traces)
        text = read_bytes(self.desc)
        description = Description(self.desc, text)
        spelled = start_spelled(self.programs, description, self.folder)
        machine = self.machine(tables, text)
        walks = Walks(machine)
        groups, of_class = page.groups_of(walks)
        rows, more = page.rows_of_matrix(groups, of_class)
        names = agreed(spelled)
        unmet, unjudged = remarks.unmet(description)
        return {
            "desc": shown(self.desc), "size": len(text), "sha256": page.sha256(text), "description": description, "machine": machine,
            "tables": len(tables), "states": sum(table.states() for table in machine.tables), "groups": groups,
            "rows": rows, "more_rows": max(0, more),
            "limits": page.limits_of(description), "notes": self.notes,
            "never": [name for group in groups if group.is_never for name in group.names],
            "not_alone": [name for group in groups if group.in_one_cycle == 0 and not group.is_never for name in group.names],
            "alike": [group.names for group in groups if len(group.names) > 1],
            "untaken": remarks.untaken(description), "unmet": unmet, "unjudged": unjudged, "idle": remarks.idle_statements(description),
            "cards": page.cards_of(description, names, groups, of_class), "unsure": len(description.classes) - len(names),
            "automata": page.automata_parts(description, machine, self.programs.pool),
            "blocks": [self.block(description, path, answers) for path, answers in zip(blocks, block_answers)],
            "traces": [self.trace(description, path, answer) for path, answer in zip(traces, trace_answers)],
            "counts": self.programs.counts, "most_states": page.MOST_STATES,
        }


def counted_away(text):
    """Tables without their lines of counts."""
    return "".join(line + "\n" for line in text.split("\n")[:-1] if not line.startswith("stats "))


def is_too_long(answer):
    """Whether `modulo` has no kernel of so many instructions."""
    return answer.status == 3 and answer.text.endswith(" insns\n")


def make_page(programs, desc, blocks, traces):
    """The page of a description, with blocks and traces."""
    template = page.load_template()
    with tempfile.TemporaryDirectory(prefix="hz_sheet-") as folder:
        return template.render(Page(programs, desc, os.path.abspath(folder)).context(blocks, traces))
