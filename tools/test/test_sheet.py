"""Unit tests of the modules of tools/sheet, on values that were found by hand. `python3 -m unittest` in this folder runs them."""
import os
import sys
import tempfile
import types
import unittest
import unittest.mock

sys.dont_write_bytecode = True
sys.path.insert(0, os.path.join(os.path.dirname(os.path.abspath(__file__)), os.pardir))

from sheet import graphs, remarks  # noqa: E402
from sheet.agreement import spread, trace_text  # noqa: E402
from sheet.blocks import Costs, Dependences, longest_path, read_block, stores_data  # noqa: E402
from sheet.charts import alternative_chart, alternative_line, columns_of, sparse_columns  # noqa: E402
from sheet.derived import spelled_class  # noqa: E402
from sheet.descriptions import Description  # noqa: E402
from sheet.expressions import Expander  # noqa: E402
from sheet.holders import Event, Holders, play, rows_left  # noqa: E402
from sheet.machines import Machine, Walks, ways_back, ways_there  # noqa: E402
from sheet.page import way_text  # noqa: E402
from sheet.programs import Stop, find_program  # noqa: E402
from sheet.reasons import is_picture_of, parts_of, reasons_in  # noqa: E402
from sheet.timelines import bound_in, kernel_in, schedule_in, slot_events  # noqa: E402
from sheet.traces import events_in  # noqa: E402
from sheet.writing import check_output, write_page  # noqa: E402

CORE = """\
; a slot, a divider that is taken for three cycles, and a port
(define_attr "type" "add,divide,store" (const_string "add"))
(define_attr "cpu" "one,two" (const_string "one"))
(define_cpu_unit "slot, divider, port, idle")
(absence_set "idle" "port")
(define_reservation "out" "nothing, port")
(define_insn_reservation "add" 1 (eq_attr "type" "add") "slot | port")
(define_insn_reservation "divide" 4 (eq_attr "type" "divide") "slot + divider, divider*2")
(define_insn_reservation "store" 2 (and (eq_attr "type" "store") (eq_attr "cpu" "!two")) "slot + out")
(define_insn_reservation "none" 1 (and (eq_attr "cpu" "one") (eq_attr "cpu" "two")) "nothing")
(define_bypass 0 "add" "store" "store_data_bypass_p")
(define_bypass 3 "divide" "add")
"""

# a table of a unit that a class takes for two cycles, and that another takes in its second cycle; made by hand
TABLES = """\
hazard-tables 1
treatment first
classes 3
class long
class late
class free
automata 1
automaton - 3 4
map 0 1 2
stats 4 4 4
row 1 2 0 0
row - - 1 3
row - - 2 3
row - 2 3 0
end
"""

BLOCK = """\
(insn 1 (set (reg 4) (mem (plus (reg 1) (const_int 8)))))
(insn 2 (set (reg 4) (plus (reg 4) (const_int 1))))
(insn 3 (set (mem (reg 1)) (reg 4)) (set_attr "type" "store"))
(insn 4 (set (reg 1) (plus (reg 1) (const_int 8))))
(insn 5 (set (reg 6) (mem (reg 1))))
"""


def description(text=CORE):
    return Description("core.md", text)


class Expressions(unittest.TestCase):
    def test_order_of_alternatives(self):
        expander = Expander({"a": 1, "b": 2, "c": 4}, {"two": "c*2", "deep": "two | a"})
        self.assertEqual(expander.of("(a|b), c"), [(1, 4), (2, 4)])
        self.assertEqual(expander.of("(a|b)*2"), [(1, 1), (1, 2), (2, 1), (2, 2)])
        self.assertEqual(expander.of("a + two, nothing"), [(5, 4, 0)])
        self.assertEqual(expander.of("deep"), [(4, 4), (1,)])

    def test_long_chains_of_reservations(self):
        chain = {f"r{place}": f"r{place + 1}" for place in range(5000)}
        self.assertEqual(Expander({"a": 1}, {**chain, "r5000": "a"}).of("r0"), [(1,)])

    def test_spelled_classes_have_the_same_alternatives(self):
        core = description()
        for one in core.classes:
            again = Expander(core.bits, {}).of(spelled_class(core, one))
            self.assertEqual([strip(alternative) for alternative in again], [strip(alternative) for alternative in one.alternatives])


def strip(alternative):
    """An alternative without empty cycles at its end."""
    return alternative[:max((place + 1 for place, units in enumerate(alternative) if units), default=0)]


class Descriptions(unittest.TestCase):
    def test_items(self):
        core = description()
        self.assertEqual([unit.name for unit in core.units], ["slot", "divider", "port", "idle"])
        self.assertEqual([(one.name, one.line, one.latency) for one in core.classes],
                         [("add", 7, 1), ("divide", 8, 4), ("store", 9, 2), ("none", 10, 1)])
        self.assertEqual(core.classes[2].alternatives, [(1, 4)])

    def test_a_sign_before_zero(self):
        self.assertEqual(description('(define_insn_reservation "x" -0 (const_int -0) "nothing")').classes[0].latency, 0)

    def test_conditions(self):
        """A condition of many attributes is judged, and one of too many cases is not."""
        attributes = "".join(f'(define_attr "a{place}" "p,q" (const_string "p"))' for place in range(60))
        tests = " ".join(f'(ior (eq_attr "a{place}" "p") (eq_attr "a{place}" "q"))' for place in range(60))
        pairs = " ".join(f'(ior (eq_attr "a{place}" "p") (eq_attr "a{place + 1}" "p"))' for place in range(0, 60, 2))
        impossible = '(eq_attr "a59" "!p, q")'
        for condition, found in (
                (f"(and {tests} (const_int 1))", ([], [])), (f"(not (and {tests} {impossible}))", ([], [])),
                (f"(and {impossible} {tests})", (["x"], [])), (f"(and {pairs} {impossible} {tests})", ([], ["x"]))):
            text = f'{attributes}(define_insn_reservation "x" 1 {condition} "nothing")'
            self.assertEqual(remarks.unmet(description(text)), found)

    def test_remarks(self):
        core = description()
        self.assertEqual([unit.name for unit in remarks.untaken(core)], ["idle"])
        self.assertEqual(remarks.unmet(core), (["none"], []))
        self.assertEqual([(statement.line, names) for statement, names in remarks.idle_statements(core)], [(5, ["idle"])])


class Machines(unittest.TestCase):
    def setUp(self):
        self.walks = Walks(Machine(TABLES))

    def test_waits(self):
        self.assertEqual([self.walks.waits(group) for group in range(3)], [[2, 1, 0], [2, 1, 0], [0, 0, 0]])

    def test_rates(self):
        self.assertEqual([self.walks.in_one_cycle(group) for group in range(3)], [1, 1, None])
        self.assertEqual([self.walks.interval(group) for group in range(3)], [2, 1, 1])

    def test_ways(self):
        table = Machine(TABLES).tables[0]
        self.assertEqual(ways_back(table), [(1, 2), (2, 2), (3, 1)])
        self.assertEqual(ways_there(table, [3, 1]), [[0, None], [0]])
        self.assertEqual(way_text([0, None, None, 1], [["long"], ["late"]]), "issue long, 2 cycles, issue late")

    def test_counts_are_no_part_of_the_text(self):
        self.assertEqual(Machine(TABLES).bytes, len(TABLES) - len("stats 4 4 4\n"))
        self.assertEqual(Machine(TABLES).tables[0].stats, [4, 4, 4])

    def test_classes_that_are_never_issued(self):
        walks = Walks(Machine(TABLES.replace("row - 2 3 0", "row - - 3 0").replace("row 1 2 0 0", "row 1 - 0 0")))
        self.assertEqual([walks.is_never_issued(group) for group in range(3)], [False, True, False])

    def test_graphs(self):
        issues, advances = graphs.edges_of(Machine(TABLES).tables[0])
        self.assertEqual(issues, {(0, 1): [0], (0, 2): [1], (0, 0): [2], (1, 1): [2], (2, 2): [2], (3, 2): [1], (3, 3): [2]})
        self.assertEqual(advances, [(0, 0), (1, 3), (2, 3), (3, 0)])
        self.assertIn('0 -> 1 [label="a\\"b"', graphs.text_of(Machine(TABLES).tables[0], ['a"b', "late", "free"]))


class Charts(unittest.TestCase):
    def test_columns(self):
        self.assertEqual([column.label() for column in columns_of([1, 2, 2, 2, 2, 2, 3])], ["0", "1–5", "6"])
        self.assertEqual([column.label() for column in columns_of([1, 1, 2])], ["0", "1", "2"])

    def test_sparse_columns(self):
        held = {**{cycle: "a" for cycle in range(3, 9)}, 20: "b"}
        self.assertEqual([column.label() for column in sparse_columns(held, 20)], ["0", "1", "2", "3–8", "9–19", "20"])
        self.assertEqual([column.label() for column in sparse_columns({}, 1000000)], ["0–1000000"])

    def test_alternatives(self):
        core = description()
        chart = alternative_chart(core, core.classes[1].alternatives[0])
        self.assertEqual([(unit.name, cells) for unit, cells in chart.rows], [("slot", [True, False, False]), ("divider", [True, True, True])])
        self.assertEqual(alternative_line(core, core.classes[1].alternatives[0]), "slot 0; divider 0–2")
        self.assertIsNone(alternative_chart(core, (0,)))
        self.assertEqual(alternative_line(core, (0,)), "no unit")


class Blocks(unittest.TestCase):
    def setUp(self):
        self.insns = read_block("block", BLOCK)

    def found(self, place):
        return {at: (found.is_true, found.is_anti, found.is_output) for at, found in Dependences(self.insns).of(place)}

    def test_texts(self):
        self.assertEqual([insn.text for insn in self.insns], ["r4 = mem[r1 + 8]", "r4 = r4 + 1", "mem[r1] = r4", "r1 = r1 + 8", "r6 = mem[r1]"])

    def test_dependences(self):
        self.assertEqual(self.found(1), {0: (True, False, True)})
        # what insn 1 wrote is written again by insn 2, and its cell is known to be another
        self.assertEqual(self.found(2), {1: (True, False, False)})
        self.assertEqual(self.found(3), {2: (False, True, False), 0: (False, True, False)})
        # the address was changed, so the cell may be the one that was stored
        self.assertEqual(self.found(4), {3: (True, False, False), 2: (True, False, False)})

    def test_costs(self):
        costs = Costs(description())
        self.assertEqual(costs.number("add", "store", True), 0)
        self.assertEqual(costs.number("add", "store", False), 1)
        self.assertEqual(costs.number("divide", "add", False), 3)
        self.assertEqual(longest_path(self.insns, ["divide", "add", "store", "add", "add"], Dependences(self.insns), costs), 5)

    def test_stores(self):
        self.assertTrue(stores_data(self.insns[1], self.insns[2]))
        self.assertFalse(stores_data(self.insns[3], self.insns[2]))


class Calendars(unittest.TestCase):
    EVENTS = [Event(1, "divide"), Event(2, None, 1), Event(3, "add"), Event(4, "add")]

    def test_play(self):
        core = description()
        length, prefixes = play(core, self.EVENTS + [Event(5, "add")])
        self.assertEqual((length, prefixes), (4, {1: [0], 4: [0, 0, 1]}))
        holders = Holders(core).play(self.EVENTS, prefixes[4])
        self.assertEqual(holders.held, {(0, 1): 0, (0, 2): 0, (1, 2): 0, (2, 2): 0, (1, 1): 2, (1, 4): 3})

    def test_pictures(self):
        rows = rows_left(description(), self.EVENTS, [0, 0, 1])
        self.assertEqual(rows, [("slot", {0: "3"}), ("divider", {0: "1", 1: "1"}), ("port", {0: "4"})])
        self.assertTrue(is_picture_of(["cycle     0 1", "slot      3 .", "divider   1 1", "port      4 ."], rows))
        self.assertFalse(is_picture_of(["cycle     0 1", "slot      3 .", "divider   1 .", "port      4 ."], rows))
        self.assertFalse(is_picture_of(["cycle     0 1", "slot      3 .", "divider   1 1"], rows))
        self.assertFalse(is_picture_of(["cycle     0", "slot      3", "divider   1", "port      4"], rows))
        self.assertEqual(rows_left(description(), [], []), [])
        self.assertTrue(is_picture_of([], []))

    def test_pictures_that_are_cut(self):
        rows = [("long_name_of_a_unit", {9: "112", 11: "7"})]
        texts = " . . . . . . . . . 2"
        self.assertTrue(is_picture_of(["cycle       0 1 2 3 4 5 6 7 8 9", "long_name  " + texts, "cut after cycle 9"], rows))
        self.assertFalse(is_picture_of(["cycle       0 1 2 3 4 5 6 7 8 9", "long_name  " + texts], rows))
        self.assertFalse(is_picture_of(["cycle       0 1 2 3 4 5 6 7 8 9", "other      " + texts, "cut after cycle 9"], rows))

    def test_any_choice(self):
        core = description('(automata_option "ndfa")(define_cpu_unit "a,b")(define_insn_reservation "x" 1 (const_int 1) "a|b")'
                           '(define_insn_reservation "y" 1 (const_int 1) "a")')
        self.assertEqual(play(core, [Event(1, "x"), Event(2, "y"), Event(3, "y")]), (2, {2: [1, 0]}))


class Answers(unittest.TestCase):
    def test_schedules(self):
        slots, length = schedule_in("0 1 add\n2 3 store\nscheduled 2 insns 2 cycles\n")
        self.assertEqual((slots, length), ([(0, 1, "add"), (2, 3, "store")], 2))
        events, lines = slot_events(slots)
        self.assertEqual(trace_text(events), "issue add\nadvance 2\nissue store\n")
        self.assertEqual(lines[3].number, 3)

    def test_bounds_and_kernels(self):
        self.assertEqual(bound_in("path 5 1 4\nload divider 12 3 8\nbound 8\nschedule 9 cycles\n"), (5, [1, 4], "divider", 12, 3, 8, 8, 9))
        self.assertEqual(bound_in("path 0\nload -\nbound 0\nschedule 0 cycles\n").unit, None)
        kernel = kernel_in("interval 2\nstages 2\n0 1 4 add\n1 0 3 mul\nedge 1 equals edge 2\nlist 3 cycles\n")
        self.assertEqual(kernel, (2, 2, [(0, 1, 4, "add"), (1, 0, 3, "mul")], 1, 2, 3))

    def test_reasons(self):
        lines = {2: types.SimpleNamespace(number=7)}
        text = "refused line 3 x\nfits 1 cycle later\nalternative 1: port in cycle 1 is planned by line 2, y\n" \
            "alternative 2: absence_set line 9, a in cycle 0 with b\ncycle 0\n"
        self.assertEqual(reasons_in(text, lines), "port 1 cycle later is planned by insn 7, absence_set line 9, a with b")

    def test_reasons_of_groups(self):
        lines = {2: types.SimpleNamespace(number=7), 9: types.SimpleNamespace(number=8)}
        text = "fits 2 cycles later\nalternatives 1-2, 4: port in cycle 0 is held from line 2, y\n" \
            "alternative 3: port in cycle 2 is planned by line 9, z\n" \
            "alternative 5: exclusion_set line 9, a in cycle 0 with b\n  a is asked for; b is held from line 2, y\n" \
            "alternatives 6, 8 ..: presence_set line 9, a in cycle 3 without a pattern\n  wants b; c\n" \
            "alternative 7: port in cycle 1 is planned by line 2..\n" \
            "alternative 1 takes port 0-2\nline 2 y in cycle -1 took alternative 1\ncycle 0\n"
        self.assertEqual(reasons_in(text, lines, 9), "port is held by insn 7, port 2 cycles later is planned by insn 8, "
                         "exclusion_set line 9, a with b, presence_set line 9, a 3 cycles later without a pattern, "
                         "port 1 cycle later is planned by line 2..")
        self.assertEqual(reasons_in(text, lines, 1), "port is held by insn 7 and 4 more")

    def test_traces(self):
        self.assertEqual(events_in("; no\n\tissue\t add \r\nask u\nadvance 007\nissue x", 2), ([Event(2, "add"), Event(4, None, 7)], 5))
        self.assertEqual(parts_of("ask line 1 u free\nrefused line 2 x\nfits in no later cycle\ncycle   0\nu       .\n"),
                         (["ask line 1 u free"], ["refused line 2 x"], ["fits in no later cycle"], ["cycle   0", "u       ."]))

    def test_spread(self):
        self.assertEqual(spread(list(range(10)), 3), [3, 6, 9])


class Writing(unittest.TestCase):
    def test_programs_that_are_missing(self):
        with self.assertRaises(Stop) as stopped:
            find_program("hz", "/nowhere/hz", "/nowhere")
        self.assertEqual((stopped.exception.text, stopped.exception.status), ("/nowhere/hz: no such program", 2))

    def test_pages_are_whole_or_not_there(self):
        with tempfile.TemporaryDirectory() as folder:
            page = os.path.join(folder, "page.html")
            write_page(page, "one")
            write_page(page, "two")
            with open(page, encoding="utf-8") as file:
                self.assertEqual(file.read(), "two")
            with unittest.mock.patch("os.replace", side_effect=OSError(28, "No space left on device")), self.assertRaises(Stop) as stopped:
                write_page(page, "three")
            self.assertEqual(stopped.exception.text, f"{page}: No space left on device")
            self.assertEqual(os.listdir(folder), ["page.html"])
            for wrong in (folder, os.path.join(folder, "none", "page.html")):
                with self.assertRaises(Stop):
                    check_output(wrong, [])
            with self.assertRaises(Stop):
                check_output(page, [page])


if __name__ == "__main__":
    unittest.main()
