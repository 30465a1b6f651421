"""Tests of linear_library.py, on the library tables.lib. It becomes tables_linear.lib, which is checked by hand."""
import contextlib
import io
import os
import random
import sys
import tempfile
import unittest
from fractions import Fraction

HERE = os.path.dirname(os.path.abspath(__file__))
sys.path.insert(0, os.path.dirname(HERE))
import common
import linear
import linear_library
import nldm
from common import Fault

TABLES = os.path.join(HERE, "tables.lib")
TEXT = common.read_text(TABLES)

PRINTED = """tables.lib: 9 cells, 2 repeaters
input slew 200.000 ps, as the tables have it
loads from 5 fF to max_capacitance or the end of the tables
edges: worst; fit: cover; repeaters: all
cell  kind      input fF     ohm  intrinsic ps  area  max load fF  misfit ps  misfit %
BUF   buffer        10.5  1000.0        20.000  1.50          120      0.000     +0.00
INV   inverter         5  1235.3         8.824     1            -    +10.589    +17.65

cell       kind   input fF     ohm  intrinsic ps     area  max load fF  misfit ps  misfit %
INV_OLD/Y  other         4     0.0        50.000        0            -      0.000     +0.00
PAD/Y      other       500  1111.1         0.000     1000            -    +35.556   +177.78
NAND/Y     other         6  1125.0        13.750        2           90     +5.000    +29.17
DFF/Q      other         4  1000.0       100.000        5            -      0.000     +0.00
TBUF/Y     other         5     0.0        30.000        3            -    +10.000    +50.00
RAM/Q[1]   other        30  1000.0       300.000  900.125           80      0.000     +0.00
RAM/Q[0]   other        30  1000.0       300.000  900.125           80      0.000     +0.00
"""

NOTES = """linear_library.py: note: tables.lib:107: PAD/Y: the intrinsic time would be negative, and is 0
linear_library.py: note: tables.lib:175: the output DFF/QN has no drive: no table gives its delay
linear_library.py: note: tables.lib:182: TBUF/Y: the resistance would be negative, and is 0
"""


def line_of(text, part):
    """The line of the first place of a part of a text."""
    assert part in text, part
    return text.count("\n", 0, text.index(part)) + 1


def drive(cell, pin="Y"):
    """The intrinsic time (ps) and the resistance (kΩ) of an output, by name or the only one of a cell."""
    found = cell.pins[pin]
    return found.intrinsic / 10**9, found.resistance / 10**6


class Folder(unittest.TestCase):
    """Tests that run the script in a folder of their own."""

    def setUp(self):
        folder = tempfile.TemporaryDirectory()
        self.addCleanup(folder.cleanup)
        self.addCleanup(os.chdir, os.getcwd())
        os.chdir(folder.name)

    def write(self, name, text):
        with open(name, "w", encoding="utf-8", newline="") as file:
            file.write(text)

    def convert(self, *options, text=TEXT, slew="200"):
        """Converts a library; its cells, standard output and standard error."""
        self.write("tables.lib", text)
        out, notes = io.StringIO(), io.StringIO()
        slews = ["--slew", slew] if slew else []
        with contextlib.redirect_stdout(out), contextlib.redirect_stderr(notes):
            linear_library.main(["tables.lib", "linear.lib", *slews, *options])
        return linear.read("linear.lib"), out.getvalue(), notes.getvalue()

    def fault(self, *options, text=TEXT, slew="200"):
        with self.assertRaises(Fault) as caught:
            self.convert(*options, text=text, slew=slew)
        return str(caught.exception)


class Conversion(Folder):
    def test_whole_library(self):
        _, printed, notes = self.convert("--all-cells")
        self.assertEqual(common.read_text("linear.lib"), common.read_text(os.path.join(HERE, "tables_linear.lib")))
        self.assertEqual(printed, PRINTED)
        self.assertEqual(notes, NOTES)

    def test_only_repeaters_are_printed(self):
        _, printed, _ = self.convert()
        self.assertEqual(printed, PRINTED[: PRINTED.index("\ncell       ")])

    def test_is_the_same_again(self):
        self.convert("--fit", "least")
        first = common.read_text("linear.lib")
        nldm.axis_points.cache_clear()
        self.convert("--fit", "least", text=TEXT.replace("\n", "\r\n"))
        self.assertEqual(common.read_text("linear.lib"), first)

    def test_slew(self):
        cells, _, notes = self.convert(slew="100")
        self.assertEqual(drive(cells["BUF"]), (10, 1))
        self.assertNotIn("outside", notes)
        cells, _, notes = self.convert(slew="400")
        self.assertEqual(drive(cells["BUF"]), (40, 1))
        line = line_of(TEXT, "cell_rise (by_load_and_slew)")
        note = "the slew is outside of tables of 3 cells, which are extrapolated, first of BUF"
        self.assertIn(f":{line}: {note}\n", notes)

    def test_slews_of_cells(self):
        self.write("slews.txt", "# cell and ps\n\nBUF 100\r\nINV 3e2 # the greatest\nBUF 300\nINV 1\n")
        cells, printed, _ = self.convert("--slews", "slews.txt", "--loads", "10", "50")
        self.assertEqual(drive(cells["BUF"]), (30, 1))
        self.assertEqual(drive(cells["INV"]), (20, 1))
        self.assertEqual(drive(cells["INV_OLD"]), (50, 0))
        self.assertIn("input slew 200.000 ps or as slews.txt, as the tables have it\n", printed)

    def test_slew_of_a_design(self):
        """A line of `*` is of all cells without a line of their own; --slew goes before it."""
        self.write("slews.txt", "# all\n* 100\n# INV 300\nINV 200\n")
        cells, printed, _ = self.convert("--slews", "slews.txt", "--loads", "10", "50", slew=None)
        self.assertEqual((drive(cells["BUF"]), drive(cells["INV"])), ((10, 1), (10, 1)))
        self.assertIn("input slew 100.000 ps or as slews.txt, as the tables have it\n", printed)
        cells, _, _ = self.convert("--slews", "slews.txt", "--loads", "10", "50", slew="300")
        self.assertEqual((drive(cells["BUF"]), drive(cells["INV"])), ((30, 1), (10, 1)))
        self.write("slews.txt", "BUF 100\n")
        reason = "slews.txt: there is no line '* PS', and no --slew"
        self.assertEqual(self.fault("--slews", "slews.txt", slew=None), reason)

    def test_slew_share(self):
        cells, printed, _ = self.convert("--slew-share", "0.5", "--edges", "rise", "--loads", "10", "50")
        self.assertEqual(drive(cells["BUF"]), (20, 1.5))
        self.assertEqual(drive(cells["INV"]), (15, 1.5))
        self.assertIn("share of the output's transition in the delay: 0.5\n", printed)
        cells, _, _ = self.convert("--slew-share", "1", "--edges", "fall", "--loads", "10", "50")
        self.assertEqual(drive(cells["INV"]), (25, 0.5))

    def test_edges(self):
        loads = ("--loads", "10", "50")
        rise = drive(self.convert("--edges", "rise", *loads)[0]["INV"])
        fall = drive(self.convert("--edges", "fall", *loads)[0]["INV"])
        self.assertEqual((rise, fall), ((10, 1), (0, 0.4)))
        self.convert("--edges", "apart", *loads)
        text = common.read_text("linear.lib")
        inverter = text[text.index("cell (INV)") : text.index("cell (INV_OLD)")]
        self.assertIn(f"intrinsic_rise : {rise[0]:g}; rise_resistance : {rise[1]:g};\n", inverter)
        self.assertIn(f"intrinsic_fall : {fall[0]:g}; fall_resistance : {fall[1]:g};\n", inverter)

    def test_an_edge_that_is_not_there(self):
        _, _, notes = self.convert("--edges", "fall")
        line = line_of(TEXT, "pin (Y) {\n      direction : inout")
        self.assertNotIn(f":{line}:", notes)
        line = line_of(TEXT, 'pin (Y) {\n      direction : output;\n      function : "P"')
        self.assertIn(f":{line}: the output PAD/Y has no drive: no table gives its delay\n", notes)
        cells, _, _ = self.convert("--edges", "apart")
        self.assertEqual(drive(cells["NAND"]), (20, 1.222223))

    def test_loads(self):
        cells, printed, _ = self.convert("--loads", "10", "50")
        self.assertEqual(drive(cells["NAND"]), (7.5, 1.25))
        self.assertIn("loads from 10 to 50 fF, at most to max_capacitance\n", printed)
        self.assertEqual(drive(cells["INV"]), (10, 1))
        wide = drive(self.convert("--loads", "10", "5000")[0]["NAND"])
        self.assertEqual(wide, drive(self.convert("--loads", "10", "90")[0]["NAND"]))

    def test_loads_end_where_less_is_allowed(self):
        """At `max_capacitance`, or at the end of the tables where more is allowed."""
        ends = [("0.05", (8.889, 1.222222)), ("0.09", (13.75, 1.125)), ("5", (13.75, 1.125))]
        for most, expected in ends:
            cells, _, _ = self.convert(text=TEXT.replace("max_capacitance : 0.09", f"max_capacitance : {most}"))
            self.assertEqual(drive(cells["NAND"]), expected)

    def test_transition_at_other_loads(self):
        """Loads at which only the transition is given count too: it is 10, 80 and 90 ps at 10, 20 and 90 fF."""
        old = 'rise_transition (by_load) { values ("0.02, 0.06, 0.10"); }'
        new = 'rise_transition (by_load) { index_1 ("0.01, 0.02, 0.09"); values ("0.01, 0.08, 0.09"); }'
        text = TEXT.replace(old, new)
        self.assertNotEqual(text, TEXT)
        cells, _, _ = self.convert("--slew-share", "1", "--edges", "rise", "--loads", "10", "30", text=text)
        delay, resistance = drive(cells["INV"])
        self.assertGreaterEqual(delay + 20 * resistance, 30 + 80)

    def test_name_of_file(self):
        """A name that ends a comment ends none of the library."""
        os.makedirs("x*")
        self.write("x*/tables.lib", TEXT)
        with contextlib.redirect_stdout(io.StringIO()), contextlib.redirect_stderr(io.StringIO()):
            linear_library.main(["x*/tables.lib", "linear.lib", "--slew", "1"])
        self.assertIn("from x* /tables.lib\n", common.read_text("linear.lib"))
        self.assertEqual(len(linear.read("linear.lib")), 9)

    def test_least_squares(self):
        cells, _, _ = self.convert("--fit", "least", "--loads", "10", "90")
        self.assertEqual(drive(cells["INV"]), (4.167, 1.25))

    def test_repeaters(self):
        cells, printed, notes = self.convert("--repeaters", "I*", "--repeaters", "?UF")
        self.assertEqual([name for name, cell in cells.items() if not cell.dont_use], ["BUF", "INV"])
        self.assertIn("edges: worst; fit: cover; repeaters: I* ?UF\n", printed)
        line = line_of(TEXT, "cell (INV_OLD)")
        reason = "not repeaters though --repeaters matches them, as it has 'dont_use : true': INV_OLD"
        self.assertIn(f"note: tables.lib:{line}: {reason}\n", notes)
        cells, _, _ = self.convert("--repeaters", "BUF")
        self.assertEqual([name for name, cell in cells.items() if not cell.dont_use], ["BUF"])

    def test_least_input_of_repeaters(self):
        _, printed, _ = self.convert("--repeaters", "BUF")
        self.assertIn("loads from 10.5 fF to", printed)

    def test_no_repeater(self):
        text = TEXT.replace("area : 1", "dont_use : true; area : 1")
        cells, printed, notes = self.convert(text=text)
        self.assertTrue(all(cell.dont_use for cell in cells.values()))
        self.assertIn("note: tables.lib: the library has no cell that can be a repeater\n", notes)
        self.assertIn("loads from 1 fF to", printed)

    def test_what_is_no_repeater(self):
        for old, new in [
            ('"(A)"', '"A & A"'), ('"(A)"', '"B"'), ('"(A)"', '"1"'), ('"(A)"', '"(A)(A)"'), ('function : "(A)"', ""),
            ("area : 1.50;", "is_level_shifter : TRUE;"), ("area : 1.50;", "pad_cell : true;"),
            ('function : "(A)"', 'function : "(A)"; three_state : "A"'), ("pin (A)", "pin (A, B)"),
            ('function : "(A)"', 'function : "(A)"; is_pad : true'), ('related_pin : "A"', 'related_pin : "A Y"'),
        ]:
            with self.subTest(new=new):
                cells, _, _ = self.convert(text=TEXT.replace(old, new, 1))
                self.assertTrue(cells["BUF"].dont_use)
        text = TEXT.replace("default_input_pin_cap : 0.004;", "").replace("capacitance : 0.005;", "", 1)
        cells, _, notes = self.convert(text=text)
        self.assertTrue(cells["INV"].dont_use)
        line = line_of(text, "pin (A) { direction : input;  }")
        self.assertIn(f"note: tables.lib:{line}: the input INV/A has no capacitance\n", notes)

    def test_default_greatest_load(self):
        text = TEXT.replace("default_input", "default_max_capacitance : 0.07; default_input")
        cells, _, _ = self.convert(text=text)
        self.assertEqual([cells[name].pins["Y"].max_capacitance for name in ("BUF", "INV")], [120000, 70000])
        self.assertIsNone(cells["INV"].pins["A"].max_capacitance)

    def test_odd_names(self):
        cells, _, _ = self.convert(text=TEXT.replace("cell (FILL)", 'cell ("a,b/*)")'))
        self.assertIn("a,b/*)", cells)

    def test_tables_of_one_point(self):
        old = 'cell_fall (by_slew) { values ("0.02, 0.04"); }'
        new = 'cell_fall (by_slew_and_load) { index_1 ("0.1"); index_2 ("0.05"); values ("0.07"); }'
        self.assertIn(old, TEXT)
        cells, _, _ = self.convert(text=TEXT.replace(old, new))
        self.assertEqual(drive(cells["INV_OLD"]), (70, 0))


class Lines(unittest.TestCase):
    def curve(self, pick):
        """Points of a delay that may fall and be negative."""
        loads = sorted(pick.sample(range(0, 400000), pick.randint(1, 9)))
        return [(Fraction(load, pick.choice([1, 3])), Fraction(pick.randint(-20, 400) * 10**9, 7)) for load in loads]

    def test_cover(self):
        pick = random.Random(1)
        for _ in range(300):
            points = sorted(dict(self.curve(pick)).items())
            line = linear_library.cover(points)
            misfits = [line.intrinsic + line.resistance * load - delay for load, delay in points]
            self.assertTrue(min(misfits) >= 0 and line.intrinsic >= 0 and line.resistance >= 0)
            if not line.clamped:
                slopes = [(b[1] - a[1]) / (b[0] - a[0]) for k, a in enumerate(points) for b in points[k + 1 :]] or [0]
                rests = [[delay - slope * load for load, delay in points] for slope in slopes]
                rounding = linear_library.STEP + points[-1][0]
                self.assertLessEqual(max(misfits), min(max(rest) - min(rest) for rest in rests) + rounding)

    def test_clamped_cover(self):
        ps = 10**9
        line = linear_library.cover([(Fraction(1000), Fraction(ps)), (Fraction(3000), Fraction(9 * ps))])
        self.assertEqual((line.intrinsic, line.resistance, line.clamped), (0, 3 * 10**6, "intrinsic time"))
        line = linear_library.cover([(Fraction(0), Fraction(-ps)), (Fraction(3000), Fraction(-ps))])
        self.assertEqual((line.intrinsic, line.resistance, line.clamped), (0, 0, "intrinsic time"))
        line = linear_library.cover([(Fraction(0), Fraction(2 * ps)), (Fraction(3000), Fraction(ps))])
        self.assertEqual((line.intrinsic, line.resistance, line.clamped), (2 * ps, 0, "resistance"))

    def test_least_squares(self):
        pick = random.Random(2)
        for _ in range(100):
            points = sorted(dict(self.curve(pick)).items())
            line = linear_library.least_squares(points)
            self.assertTrue(line.intrinsic >= 0 and line.resistance >= 0)
            if line.clamped or len(points) == 1:
                continue

            def error(intrinsic, resistance):
                return sum((intrinsic + resistance * load - delay) ** 2 for load, delay in points)

            best = error(line.intrinsic, line.resistance)
            for more in (-2, 2):
                self.assertLessEqual(best, error(line.intrinsic + more * linear_library.STEP, line.resistance))
        ps = 10**9
        line = linear_library.least_squares([(Fraction(1000), Fraction(ps)), (Fraction(2000), Fraction(7 * ps))])
        self.assertEqual((line.intrinsic, line.resistance, line.clamped), (0, 3 * 10**6, "intrinsic time"))


class Faults(Folder):
    CASES = [
        # what is replaced, by what, where the fault is (a part of the new text), and its reason
        ("table_lookup", "cmos2", "cmos2", "the delay_model 'cmos2' is not table_lookup"),
        ("time_unit", "no_unit", "library (", "the library has no 'time_unit'"),
        ('"1ns"', '"1fs"', '"1fs"', "the time_unit '1fs' is none of 1ps, 10ps, 100ps, 1ns"),
        ("capacitive_load_unit", "no_unit", "library (", "the library has no 'capacitive_load_unit'"),
        ("(1, pf)", "(1, kf)", "(1, kf)", "the capacitive_load_unit (1, kf) is no number and 'ff' or 'pf'"),
        ("define (", "include_file (x); define (", "include",
         "'include_file' is not followed: put the text in its place"),
        ("cell_rise (by_load)", "cell_rise (by)", "cell_rise (by)",
         "'cell_rise (by)' has a template that the library does not have"),
        ("variable_1 : total", "variable_1 : wire", "variable_1 : wire",
         "a delay over the variable 'wire_output_net_capacitance' is not read: "
         "input_net_transition, input_transition_time, total_output_net_capacitance are"),
        ("variable_2 : input_net", "variable_3 : a; variable_2 : input_net", "lu_table_template (by_load_and_slew)",
         "the template 'by_load_and_slew' has not one or two variables"),
        ("variable_2 : input_net_transition", "variable_2 : total_output_net_capacitance",
         "lu_table_template (by_load_and_slew)",
         "the template 'by_load_and_slew' has one variable twice"),
        ('index_2 ("0.01, 0.05, 0.09");', "", "cell_rise (by_slew_and_load)",
         "the table and its template have no 'index_2'"),
        ('"0.01, 0.05, 0.09"', '"0.01, 0.09, 0.05"', '"0.01, 0.09, 0.05"',
         "'index_2' is not a list of numbers that increase"),
        ('"0.01, 0.04, 0.08, 0.16"', '"0.01, 0.04, 0.04, 0.16"', '"0.01, 0.04, 0.04',
         "'index_1' is not a list of numbers that increase"),
        ('"0.01, 0.04, 0.08, 0.16"', '""', 'index_1 ("")', "'index_1' is not a list of numbers that increase"),
        ('"0.050, 0.070"', '"0.050"', "values", "'cell_rise (by_load_and_slew)' has 7 values in 4 rows, not 4 x 2"),
        ('"0.050, 0.070", ', '"0.050, 0.070, 1", ', "values",
         "'cell_rise (by_load_and_slew)' has 9 values in 4 rows, not 4 x 2"),
        ('0.070", \\\n                  "0.090, ', '0.070, 0.090", \\\n "', "values",
         "'cell_rise (by_load_and_slew)' has 8 values in 4 rows, not 4 x 2"),
        ('"0.05"', '"0.05, 0.06"', '"0.05, 0.06"', "'cell_rise (scalar)' has 2 values in 1 rows, not 1"),
        ('"0.050, 0.070"', '"0.050,, 0.070"', "values", "'0.050,, 0.070' is not a list of numbers"),
        ('"0.050, 0.070"', '"0.050, 1_0"', "values", "'0.050, 1_0' is not a list of numbers"),
        ('"0.050, 0.070"', '"nan, 0.070"', "values", "'nan, 0.070' is not a list of numbers"),
        ('"0.050, 0.070"', '""', "values", "'' is not a list of numbers"),
        ('{ values ("0.05"); }', "{ }", "cell_rise (scalar)", "'cell_rise (scalar)' has no values"),
        ("cell_fall (by_slew)", "cell_rise (scalar)", 'cell_rise (scalar) { values ("0.02',
         "the timing group has 'cell_rise' twice"),
        ('related_pin : "A";', "", "timing ()", "the timing group has no 'related_pin'"),
        ('related_pin : "A";', 'related_pin : "";', "related_pin", "'related_pin' names no pin"),
        ('related_pin : "A";', 'related_pin : "A Z";', "related_pin", "the related pin 'Z' is no pin of the cell"),
        ("combinational_fall", "sideways", "sideways", "the timing_type 'sideways' is unknown"),
        ("pin (A, B)", "pin (A, A)", "pin (A, A)", "the pin 'A' of 'cell (NAND)' is there twice"),
        ("cell (FILL)", "cell (BUF)", "cell (BUF) { area : 1; }", "the cell BUF is there twice"),
        ("cell (FILL)", "cell (A, B)", "cell (A, B)", "a cell has not one name"),
        ("cell (FILL)", 'cell ("a b")', 'cell ("a b")',
         "the name 'a b' has other bytes than those from 33 to 126, or a quote"),
        ("pin (CK) { direction : input;", "pin (CK) {", "pin (CK)", "the pin 'CK' of 'cell (DFF)' has no direction"),
        ('direction : "output"', "direction : out", "direction : out;", "the direction 'out' is unknown"),
        ("capacitance : 0.003", "capacitance : -1", "capacitance : -1", "'capacitance' is negative"),
        ("capacitance : 0.003", "capacitance : 1pf", "capacitance : 1pf", "'1pf' is not a number"),
        ("max_capacitance : 0.09", "max_capacitance : x", "max_capacitance : x", "'x' is not a number"),
        ("area : 1.50", "area : -1", "area : -1", "'area' is negative"),
        ("bus_type : pair", "bus_type : none", "bus_type : none", "the type of 'bus (A)' is not there"),
        ("bit_from : 1;", "", "type (pair)",
         "'type (pair)' has no 'bit_from' and 'bit_to' that are whole and less than 65536"),
        ("bit_from : 1;", "bit_from : 99999999;", "type (pair)",
         "'type (pair)' has no 'bit_from' and 'bit_to' that are whole and less than 65536"),
        ("define (", 'bus_naming_style : "%s<%d>"; define (', "bus (A)",
         "a bus_naming_style other than %s[%d] is not read"),
        ("pin (A[0])", "pin (A[2])", "pin (A[2])", "the pin 'A[2]' is no bit of 'bus (A)'"),
        ('members (S1, "S2");', "", "bundle (S)", "'bundle (S)' has no members"),
    ]

    def test_faults_of_the_library(self):
        for old, new, place, reason in self.CASES:
            text = TEXT.replace(old, new, 1)
            self.assertNotEqual(text, TEXT, old)
            with self.subTest(new=new):
                self.assertEqual(self.fault(text=text), f"tables.lib:{line_of(text, place)}: {reason}")

    def test_no_tables(self):
        text = TEXT.replace("cell_rise (scalar)", "output_current_rise ()").replace("cell_fall (by_slew)", "other ()")
        line = line_of(text, "cell (INV_OLD)") + 6
        reason = "the timing group has no table 'cell_rise' or 'cell_fall'"
        self.assertEqual(self.fault(text=text), f"tables.lib:{line}: {reason}")

    def test_no_transition(self):
        text = TEXT.replace("fall_transition (by_slew)", "other (x)")
        line = line_of(text, "related_pin : A;") - 1
        reason = "the timing group has no 'fall_transition'"
        self.assertEqual(self.fault("--slew-share", "0.1", text=text), f"tables.lib:{line}: {reason}")
        self.convert(text=text)

    def test_patterns(self):
        reason = "no cell matches --repeaters X*"
        self.assertEqual(self.fault("--repeaters", "BUF", "--repeaters", "X*"), f"tables.lib: {reason}")
        reason = "no cell that matches --repeaters PA* can be a repeater; PAD: it has 'pad_cell : true'"
        self.assertEqual(self.fault("--repeaters", "PA*"), f"tables.lib:{line_of(TEXT, 'cell (PAD)')}: {reason}")

    def test_too_many_repeaters(self):
        start, end = TEXT.index("  cell (INV) {"), TEXT.index("  cell (INV_OLD) {")
        more = "".join(TEXT[start:end].replace("(INV)", f"(INV{k})") for k in range(255))
        text = TEXT[:end] + more + TEXT[end:]
        reason = "257 cells are repeaters, more than 256: choose some by --repeaters"
        self.assertEqual(self.fault(text=text), f"tables.lib:{line_of(text, 'cell (INV254)')}: {reason}")
        cells, _, _ = self.convert("--repeaters", "INV*", text=text)
        self.assertEqual(sum(not cell.dont_use for cell in cells.values()), 256)

    def test_slews(self):
        for text, line, reason in [
            ("BUF 1\nFOO 2\n", 2, "the library has no cell FOO"),
            ("\nBUF\n", 2, "the line is not a cell and a slew"),
            ("BUF 1 ps\n", 1, "the line is not a cell and a slew"),
            ("BUF -1\n", 1, "the slew is negative"),
            ("BUF inf\n", 1, "'inf' is not a number"),
        ]:
            self.write("slews.txt", text)
            self.assertEqual(self.fault("--slews", "slews.txt"), f"slews.txt:{line}: {reason}")

    def test_the_same_file(self):
        self.write("tables.lib", TEXT)
        self.assertEqual(self.missing(), "none.lib: No such file or directory")
        with self.assertRaises(Fault) as caught:
            linear_library.main(["tables.lib", "./tables.lib", "--slew", "1"])
        self.assertEqual(str(caught.exception), "tables.lib: the library of tables is also the file to be written")
        self.assertEqual(common.read_text("tables.lib"), TEXT)

    def missing(self):
        with self.assertRaises(Fault) as caught:
            linear_library.main(["none.lib", "tables.lib", "--slew", "1"])
        return str(caught.exception)

    def test_options(self):
        slew = ["--slew", "1"]
        for words, reason in [
            (["--slew", "-1"], "argument --slew: "), (["--slew", "1ps"], "'1ps' is not a number of 0 or more"),
            (slew + ["--slew-share", "1.5"], "'1.5' is more than 1"), (slew + ["--loads", "5", "5"], "LOW is not less"),
            (slew + ["--fit", "x"], "invalid choice: 'x'"), ([], "--slew or --slews is missing"),
        ]:
            said = io.StringIO()
            with self.assertRaises(SystemExit) as caught, contextlib.redirect_stderr(said):
                linear_library.main(["a.lib", "b.lib", *words])
            self.assertEqual(caught.exception.code, 2)
            self.assertIn(reason, said.getvalue())

    def test_cut_texts(self):
        """Each part of the library from its beginning is a fault, with a line of it, and nothing is written."""
        for length in range(0, len(TEXT) - 3, 97):
            text = TEXT[:length]
            self.write("tables.lib", text)
            with self.assertRaises(Fault) as caught:
                self.convert(text=text)
            self.assertTrue(1 <= caught.exception.line <= text.count("\n") + 1)
            self.assertFalse(os.path.exists("linear.lib"))


if __name__ == "__main__":
    unittest.main()
