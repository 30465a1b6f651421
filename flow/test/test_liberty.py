"""Tests of liberty.py and linear.py."""
import os
import sys
import tempfile
import unittest
from fractions import Fraction

HERE = os.path.dirname(os.path.abspath(__file__))
sys.path.insert(0, os.path.dirname(HERE))
import liberty
import linear
from common import Fault

GOOD = """/* a comment with "quotes" and { braces
   over two lines */
library (good) {
  simple : 5;
  quoted : "a; b } c";  // a note with "one quote
  expression : VDD - 0.5 ;
  clause : !A & (B | C)
  last : yes }
"""

LINEAR = """library (l) {
  delay_model : generic_cmos;
  time_unit : "1ps";
  capacitive_load_unit (1, ff);
  cell (BUF) {
    area : 1.2345;
    pin (A, B) { direction : input; capacitance : 0.25; }
    pin (A) { direction : output; }
    pin (Y) {
      direction : output;
      max_capacitance : 7;
      timing () { intrinsic_rise : 2.5; rise_resistance : 3; }
      timing () { intrinsic_fall : 1; intrinsic_rise : 2; fall_resistance : 4e0; slope_rise : -0; }
    }
    pin (IO) { direction : inout; timing () { intrinsic_rise : 1; rise_resistance : 1; } }
    pin (HALF) { direction : output; timing () { intrinsic_rise : 1; } }
    bus (D) { pin (D[0]) { direction : input; } }
  }
  cell ("OTHER") { dont_use : true; area (5); }
}
"""


def linear_text(time, load):
    """The linear library with other units."""
    return LINEAR.replace("1ps", time).replace("1, ff", load)


def parse(text):
    return liberty.parse(text, "f.lib")


def inside(text):
    """The library with some text from line 2 on."""
    return parse("library (x) {\n" + text + "\n}\n")


class Parsing(unittest.TestCase):
    def test_simple_attributes(self):
        library = parse(GOOD)
        self.assertEqual((library.kind, library.arguments), ("library", ["good"]))
        self.assertEqual((library.line, library.file), (3, "f.lib"))
        self.assertEqual({name: (found[0].values, found[0].line) for name, found in library.attributes.items()}, {
            "simple": (["5"], 4),
            "quoted": (["a; b } c"], 5),
            "expression": (["VDD - 0.5"], 6),
            "clause": (["!A & (B | C)"], 7),
            "last": (["yes"], 8),
        })
        self.assertEqual(library.text("quoted"), "a; b } c")
        self.assertEqual((library.text("none"), library.text("none", "5")), (None, "5"))

    def test_complex_attributes(self):
        library = inside('a (1, 2.5 , word "s, t");b()c("x")\nvalues ( \\\n "1, 2", \\\n  "3, \\\n  4" );')
        found = {name: (found[0].values, found[0].line, found[0].simple) for name, found in library.attributes.items()}
        self.assertEqual(found, {
            "a": (["1", "2.5", "word", "s, t"], 2, False),
            "b": ([], 2, False),
            "c": (["x"], 2, False),
            "values": (["1, 2", "3,    4"], 3, False),
        })

    def test_groups(self):
        library = inside("cell (A)\n{ pin (X, Y) {timing(){ } timing {\n a:1 } };; }\ncell (\"B\") { }")
        first, second = library.groups_of("cell")
        self.assertEqual((first.arguments, first.line, second.arguments, second.line), (["A"], 2, ["B"], 5))
        (pin,) = first.groups_of("pin")
        self.assertEqual(pin.arguments, ["X", "Y"])
        self.assertEqual([group.text("a") for group in pin.groups_of("timing")], [None, "1"])
        self.assertEqual(first.groups_of("timing"), [])

    def test_all_of_one_name(self):
        library = inside("a (1);\na : 2;\na : 3;")
        self.assertEqual([found.line for found in library.attributes["a"]], [2, 3, 4])
        self.assertEqual((library.text("a"), library.attribute("a").values, library.attribute("b")), ("2", ["1"], None))

    def test_ends_of_lines(self):
        plain = 'a : 5\nb : "x" ;\nvalues ("1, \\\n 2", \\\n "3");\nc : \\\n  7;\npin (A) { }\n'
        library = inside(plain)
        other = parse(("library (x) {\n" + plain + "\n}\n").replace("\n", "\r\n"))
        self.assertEqual(library, other)
        self.assertEqual((library.text("a"), library.text("c"), library.groups[0].line), ("5", "7", 9))
        self.assertEqual(library.attribute("values").values, ["1,   2", "3"])

    def test_comments(self):
        library = inside(
            "a : 1; // x : 2; {\n// y : 3;\nb (1, // two\n 2);\n/*/ c : 4; /*/ d : 5; /**/ e /* */ : /* */ 6 /* ; */;"
        )
        self.assertEqual({name: found[0].values for name, found in library.attributes.items()},
                         {"a": ["1"], "b": ["1", "2"], "d": ["5"], "e": ["6"]})
        self.assertEqual(inside("url : http://x/y;").text("url"), "http://x/y")
        self.assertEqual(inside('text : "/* no comment // here";').text("text"), "/* no comment // here")

    def test_strings(self):
        self.assertEqual(inside('a : "say \\"x\\"";').text("a"), 'say \\"x\\"')
        self.assertEqual(inside('a : "";').text("a"), "")
        self.assertEqual(parse('\ufefflibrary (x) { a : "\udcff"; }').text("a"), "\udcff")

    def test_faults(self):
        for text, line, reason in [
            ("", 1, "the text has no library"),
            ("\n\n", 3, "the text has no library"),
            ("a : 5;", 1, "'a' is outside of a library"),
            ("\ncell (A) { }", 2, "the group 'cell (A)' is outside of a library"),
            ("library (x) {\n}\n}", 3, "a '}' closes no group"),
            ("library (x) {\n}\n\na : 5;", 4, "'a' stands after the '}' of the library"),
            ("library (x) {\ncell (A) {\n  a : 5;\n", 3, "the text ends, and 'cell (A)' of line 2 has no '}'"),
            ("library (x) {\na : 5;\n?", 3, "'?' begins no attribute and no group"),
            ("library (x) {\na 5;\n", 2, "'a' begins no attribute and no group"),
            ("library (x) {\na :\n  b : 5;\n}", 2, "'a' has no value"),
            ("library (x) {\na : ;\n}", 2, "'a' has no value"),
            ("library (x) {\na : }", 2, "'a' has no value"),
            ("library (x) {\n\na : \"x\" y;\n}", 3, "neither ';' nor the end of the line is after the value of 'a'"),
            ("library (x) {\na : x {\n}", 2, "neither ';' nor the end of the line is after the value of 'a'"),
            ("library (x) {\na : \"x;\n}", 2, "a string has no end on its line"),
            ("library (x) {\nvalues (\"1,\n2\");\n}", 2, "a string has no end on its line"),
            ("library (x) {\nvalues (\"1\", \\\n\"2);\n}", 3, "a string has no end on its line"),
            ("library (x) {\na (1, 2;\n}", 2, "the arguments of 'a' have no ')'"),
            ("library (x) {\na (1, (2));\n}", 2, "the arguments of 'a' have no ')'"),
            ("library (x) {\n\na (1,, 2);\n}", 3, "an argument of 'a' is empty"),
            ("library (x) {\na (, 2);\n}", 2, "an argument of 'a' is empty"),
            ("library (x) {\na (1, );\n}", 2, "an argument of 'a' is empty"),
            ("library (x) {\n/* a\n}", 2, "a comment has no end"),
            ("library (x) {\n/*/", 2, "a comment has no end"),
            ("library (x) {\ncell (A) {\npin (B) {\n}\ncell (C) {\n}\n}", 5,
             "'cell (C)' begins inside of 'cell (A)' of line 2: a '}' is missing"),
        ]:
            with self.subTest(text=text), self.assertRaises(Fault) as caught:
                parse(text)
            self.assertEqual(str(caught.exception), f"f.lib:{line}: {reason}")

    def test_every_cut(self):
        """Each beginning of a library is a fault, with a line of it."""
        whole = GOOD.replace("last : yes }", "cell (A) { values (\"1, \\\n2\", 3); } }")
        parse(whole)
        for length in range(len(whole.rstrip())):
            with self.assertRaises(Fault) as caught:
                parse(whole[:length])
            self.assertTrue(1 <= caught.exception.line <= whole[:length].count("\n") + 1)

    def test_file(self):
        self.assertEqual(liberty.read(os.path.join(HERE, "tables.lib")).arguments, ["small_tables"])
        with self.assertRaises(Fault) as caught:
            liberty.read(os.path.join(HERE, "tables_none.lib"))
        self.assertIsNone(caught.exception.line)


class Units(unittest.TestCase):
    def test_good(self):
        for text, size in [('"1ns"', 1000), ("1PS", 1), ('"10ps"', 10), ("100ps", 100)]:
            self.assertEqual(liberty.time_unit_ps(inside(f"time_unit : {text};")), size)
        for text, size in [
            ("1, pf", 1000), ('1.0,"ff"', 1), ("100 , FF", 100), ("0.1, pf", 100), ("0.01, ff", Fraction(1, 100))
        ]:
            self.assertEqual(liberty.load_unit_ff(inside(f"capacitive_load_unit ({text});")), size)

    def test_bad(self):
        for unit, text, line, reason in [
            (liberty.time_unit_ps, "", 1, "the library has no 'time_unit'"),
            (liberty.time_unit_ps, "time_unit (1, ns);", 1, "the library has no 'time_unit'"),
            (liberty.time_unit_ps, 'time_unit : "1us";', 2, "the time_unit '1us' is none of 1ps, 10ps, 100ps, 1ns"),
            (liberty.load_unit_ff, "capacitive_load_unit : pf;", 1, "the library has no 'capacitive_load_unit'"),
            (liberty.load_unit_ff, "capacitive_load_unit (0, pf);", 2,
             "the capacitive_load_unit (0, pf) is no number and 'ff' or 'pf'"),
            (liberty.load_unit_ff, "\ncapacitive_load_unit (1, nf);", 3,
             "the capacitive_load_unit (1, nf) is no number and 'ff' or 'pf'"),
            (liberty.load_unit_ff, "capacitive_load_unit (1);", 2,
             "the capacitive_load_unit (1) is no number and 'ff' or 'pf'"),
        ]:
            with self.subTest(text=text), self.assertRaises(Fault) as caught:
                unit(inside(text))
            self.assertEqual(str(caught.exception), f"f.lib:{line}: {reason}")


class Functions(unittest.TestCase):
    def test_inversion(self):
        for function, inverts in [
            ("A", False), ("(A)", False), ("!A", True), ("A'", True), ("!(A')", False), (" ( ! A ) ' ", False),
            ("!!A", False), ("A B", None), ("(A)(A)", None), ("", None), ("!", None), ("A1", None),
        ]:
            self.assertEqual(liberty.inversion(function, "A"), inverts, function)


class Linear(unittest.TestCase):
    def read(self, text):
        with tempfile.TemporaryDirectory() as folder:
            path = os.path.join(folder, "l.lib")
            with open(path, "w", encoding="utf-8") as file:
                file.write(text)
            try:
                return linear.read(path)
            except Fault as fault:
                fault.file = "l.lib"
                raise

    def test_units(self):
        ps, ff, ohm = 10**9, 10**3, 10**3
        for time, load, time_size, load_size in [
            ("1ps", "1, ff", 1, 1), ("1ns", "1, pf", 1000, 1000),
            ("10PS", "100, ff", 10, 100), ("100ps", "10, pf", 100, 10000),
        ]:
            cells = self.read(linear_text(time, load))
            drive = cells["BUF"].pins["Y"]
            self.assertEqual((drive.intrinsic, drive.max_capacitance), (2.5 * time_size * ps, 7 * load_size * ff))
            self.assertEqual(drive.resistance, 4 * 1000 * ohm * time_size // load_size)
            self.assertEqual(cells["BUF"].pins["B"].capacitance, load_size * ff // 4)

    def test_cells(self):
        cells = self.read(LINEAR)
        self.assertEqual([(cell.name, cell.area, cell.dont_use, cell.line) for cell in cells.values()],
                         [("BUF", 1235, False, 5), ("OTHER", 0, True, 19)])
        pins = cells["BUF"].pins
        self.assertEqual(list(pins), ["A", "B", "Y", "IO", "HALF"])
        self.assertEqual(pins["A"], linear.Pin("A", "input", 250, None, None, None))
        for name in ("IO", "HALF"):
            self.assertEqual((pins[name].intrinsic, pins[name].resistance), (None, None))

    def test_default_unit_of_times(self):
        drive = self.read(LINEAR.replace('time_unit : "1ps";', ""))["BUF"].pins["Y"]
        self.assertEqual((drive.intrinsic, drive.resistance), (2500 * 10**9, 4 * 10**9))

    def test_faults(self):
        for old, new, line, reason in [
            ("generic_cmos", "table_lookup", 2, "the delay_model 'table_lookup' is not generic_cmos"),
            ("1ps", "2ps", 3, "the time_unit '2ps' is none of 1ps, 10ps, 100ps, 1ns"),
            ("(1, ff)", "(2, ff)", 1, "a unit of 2 is no power of ten"),
            ('"OTHER"', "BUF", 19, "the cell BUF is there twice"),
            ('"OTHER"', "A, B", 19, "a cell has not one name"),
            ("1.2345", "one", 6, "'one' is not a number"),
            ("0.25", "-1", 7, "the number -1 is negative"),
            ("2.5", "1e7", 12, "the number 1e7 is too large"),
            ("slope_rise : -0", "slope_rise : -0.1", 13, "slope_rise is not 0"),
        ]:
            with self.subTest(new=new), self.assertRaises(Fault) as caught:
                self.read(LINEAR.replace(old, new, 1))
            self.assertEqual(str(caught.exception), f"l.lib:{line}: {reason}")


if __name__ == "__main__":
    unittest.main()
