"""Tests of flow/constraints.py: the slacks text, the rows, the notes, the blockages of a DEF file, and each fault."""
import contextlib
import io
import os
import sys
import tempfile
import unittest
from unittest import mock

HERE = os.path.dirname(os.path.abspath(__file__))
sys.path.insert(0, os.path.dirname(HERE))
import common
import constraints

SLACKS, SPEF, LIB = (os.path.join(HERE, name) for name in ("slacks1.txt", "slacks.spef", "slacks.lib"))
DEF = """VERSION 5.8 ;
UNITS DISTANCE MICRONS 2000 ;
# BLOCKAGES in a comment
PINS 0 ;
END PINS
BLOCKAGES 3 ;
- PLACEMENT RECT ( 0 0 ) ( 2001 4000 ) ;
- LAYER metal1 RECT ( 0 0 ) ( 1 1 ) ;
- PLACEMENT
  RECT ( 4000 1 ) ( 2000 3 ) RECT ( -2000 0 ) ( 0 0 ) ;
END BLOCKAGES
END DESIGN
"""
ROWS = """default required 1000000000
drive in 400 0
load out[1] 50
drive clk 100 5
required core/u1:A -14.3
required u2:A 499.876544
required out[1] 88.2
block clk:1
block idle:1
"""


class Case(unittest.TestCase):
    def setUp(self):
        self.folder = tempfile.TemporaryDirectory()
        self.addCleanup(self.folder.cleanup)

    def file(self, text, name="t.txt"):
        path = os.path.join(self.folder.name, name)
        common.write_text(path, text)
        return path

    def changed(self, old, new, path=SLACKS):
        """A copy of a file with one text replaced."""
        text = common.read_text(path)
        self.assertIn(old, text)
        return self.file(text.replace(old, new), os.path.basename(path))

    def run_main(self, slacks, *options, spef=SPEF):
        """What the script prints on standard output and on standard error."""
        out, notes = io.TextIOWrapper(io.BytesIO(), newline=""), io.StringIO()
        words = ["constraints.py", slacks, "--spef", spef, "--lib", LIB, *options]
        with mock.patch.object(sys, "argv", words), contextlib.redirect_stdout(out), contextlib.redirect_stderr(notes):
            constraints.main()
            out.flush()
        return out.buffer.getvalue().decode(), notes.getvalue()

    def fault(self, line, reason, slacks, *options, spef=SPEF):
        with self.assertRaises(common.Fault) as caught:
            self.run_main(slacks, *options, spef=spef)
        self.assertEqual((caught.exception.line, caught.exception.reason), (line, reason))


class Rows(Case):
    PORTS = ("--port-drive", "100", "5", "--port-load", "3")

    def test_rows(self):
        """The required time of u2:A is -20.123456 + 10 + 1000 * 0.204 + 1000 * 0.204 + 1000 * 0.102 ps."""
        rows, notes = self.run_main(SLACKS, *self.PORTS)
        self.assertEqual(rows, "vgcons 1\n" + ROWS)
        self.assertEqual(
            notes,
            "constraints.py: note: nets that vginsert refuses for their parasitics: 1 (loop: 13 Loop)\n"
            "constraints.py: note: nets with a cell or pin that the linear library lacks: 1 (odd: XOR/Z)\n"
            f"constraints.py: note: nets of {SPEF} that {SLACKS} lacks: 1 (extra)\n"
            f"constraints.py: note: nets of {SLACKS} that {SPEF} lacks: 1 (unknown)\n",
        )

    def test_leave(self):
        """Brackets stand for themselves."""
        rows, _ = self.run_main(SLACKS, *self.PORTS, "--leave", "a[*", "--leave", "out[?]")
        expected = ROWS.replace("499.876544\n", "499.876544\nblock a[3]:1\n")
        expected = expected.replace("88.2\n", "88.2\nblock out[1]:7\n")
        self.assertEqual(rows, "vgcons 1\n" + expected)

    def test_left_net_that_differs(self):
        slacks = self.changed("load u3/A BUF/A none", "load u33/A BUF/A none")
        rows, notes = self.run_main(slacks, *self.PORTS, "--leave", "a[3]")
        self.assertEqual(rows, "vgcons 1\n" + ROWS.replace("required u2:A 499.876544", "block a[3]:1"))
        self.assertIn("note: nets that are left as they are, and differ from the SPEF file: 1 (a[3])\n", notes)

    def test_port_cell(self):
        rows, _ = self.run_main(self.changed("port_drive in 400", "port_cell in BUF/Z"))
        self.assertIn("drive in 1000 10\n", rows)
        self.assertIn("required core/u1:A 2.9\n", rows)

    def test_ports_without_options(self):
        rows, _ = self.run_main(self.changed("port_drive in 400\n", ""))
        self.assertNotIn("drive ", rows)
        self.assertIn("required core/u1:A -19.1\n", rows)

    def test_names_that_rows_cannot_write(self):
        slacks = self.changed("load core/u1/A", "load core/u#1/A")
        spef = self.changed("core/u1:A", "core/u#1:A", SPEF)
        rows, notes = self.run_main(slacks, *self.PORTS, spef=spef)
        self.assertEqual(rows, "vgcons 1\n" + ROWS.replace("required core/u1:A -14.3\n", ""))
        self.assertIn("note: names with a `#`, which no row can write: 1 (core/u#1:A)\n", notes)

    def test_boxes(self):
        rows, _ = self.run_main(SLACKS, *self.PORTS, "--def", self.file(DEF, "t.def"))
        boxes = "block_box 0 0 1.001 2\nblock_box 1 0 2 0.002\nblock_box -1 0 0 0\n"
        self.assertEqual(rows, "vgcons 2\n" + boxes + ROWS)

    def test_output(self):
        rows, _ = self.run_main(SLACKS, *self.PORTS, "-o", os.path.join(self.folder.name, "o.cons"))
        self.assertEqual(rows, "")
        self.assertEqual(common.read_text(os.path.join(self.folder.name, "o.cons")), "vgcons 1\n" + ROWS)

    def test_summary(self):
        rows, _ = self.run_main(SLACKS, "--summary")
        self.assertEqual(rows, "wns -20.5 tns -30.25 late 2 cells 7 area 23\n")

    def test_row_names(self):
        self.assertEqual(constraints.row_name("*1:a", "Z\\"), "\\*1\\:a:Z\\\\")
        self.assertEqual(constraints.row_name('a"[3]', None), 'a\\"[3]')

    def test_pin_names(self):
        cases = [("u/Z", ("u", "Z")), ("c/u\\/1/Z\\[0\\]", ("c/u/1", "Z[0]")), ("a\\\\b/Z", ("a\\b", "Z"))]
        cases += [('q"/Z', ('q"', "Z")), ("port", None), ("/Z", None), ("u/", None), ("u/\\", None), ("", None)]
        for text, expected in cases:
            with self.subTest(text):
                self.assertEqual(constraints.pin_name(text), expected)


class Faults(Case):
    def test_lines(self):
        not_a_line = "not a line of a slacks text"
        cases = [
            ("vgslacks 1", "vgslacks 2", 1, "the first line is not `vgslacks 1`"),
            ("wns -20.5", "wns  -20.5", 2, not_a_line),
            ("tns -30.25", "tns x", 3, "'x' is not a number"),
            ("late 2", "driver u1/Z BUF/Z", 4, not_a_line),
            ("cells DFF 1", "cells BUF 1", 6, "a second line cells BUF"),
            ("late 2", "tns 2", 4, "a second line tns"),
            ("driver in port", "driver in", 10, not_a_line),
            ("driver in port", "driver i/n\\ port", 10, "'i/n\\' is not a name"),
            ("load core/u1/A BUF/A", "load core BUF/A", 11, "'core' is not a pin"),
            ("load core/u1/A BUF/A", "load core/u1/A BUF", 11, "'BUF' is not a pin of a cell"),
            ("BUF/A -20.5", "BUF/A -1x", 11, "'-1x' is not a number"),
            ("cells DFF 1", "cells DFF -1", 6, "the number -1 is negative"),
            ("BUF/A -20.5", "BUF/A 100000000.1", 11, "the slack 100000000.1 is over 10^8 ps"),
            ("load u3/A", "load u2/A", 15, "a second load u2:A"),
            ("net out[1]", "net a[3]", 16, "a second net a[3], first at line 12"),
            ("driver u2/Z", "tns 3", 17, not_a_line),
        ]
        for old, new, line, reason in cases:
            with self.subTest(new):
                self.fault(line, reason, self.changed(old, new))
        text = common.read_text(SLACKS)
        self.fault(35, "the last line does not end: the text is cut off", self.file(text[:-1]))

    def test_designs_differ(self):
        slacks = self.changed("load u3/A", "load u33/A")
        self.fault(15, f"net a[3]: {SPEF}:26 has no load u33:A", slacks)
        slacks = self.changed("load u3/A BUF/A none\n", "")
        self.fault(12, f"net a[3] has no load u3:A, which {SPEF}:26 has", slacks)
        slacks = self.changed("driver u2/Z", "driver u2/Y")
        self.fault(17, f"net out[1]: {SPEF}:39 has no driver u2:Y", slacks)

    def test_driving_cell(self):
        slacks = self.changed("port_drive in 400", "port_cell in INV/Z")
        self.fault(8, "the linear library lacks INV/Z, which drives the port in", slacks)
        slacks = self.changed("port_drive in 400", "port_cell in DFF/Q")
        self.fault(8, "the linear library lacks DFF/Q (no drive), which drives the port in", slacks)

    def test_long_delay(self):
        spef = self.changed("1 in in:1 100", "1 in in:1 1e10", SPEF)
        self.fault(16, "the delay of net in in the linear model is over 10^8 ps", SLACKS, spef=spef)

    def test_options(self):
        self.fault(None, "--port-load: the number -1 is negative", SLACKS, "--port-load=-1")
        self.fault(None, "--port-drive: 'x' is not a number", SLACKS, "--port-drive", "x", "1")

    def test_summary_of_unknown_cell(self):
        slacks = self.changed("cells DFF 1", "cells XOR 1")
        self.fault(6, "the linear library lacks the cell XOR", slacks, "--summary")

    def test_blockages(self):
        form = "a placement blockage of another form than RECT ( x y ) ( x y ): "
        cases = [
            ("MICRONS 2000", "MICRONS x", 2, "UNITS DISTANCE MICRONS without a number"),
            ("UNITS DISTANCE MICRONS 2000 ;\n", "", 5, "BLOCKAGES without UNITS DISTANCE MICRONS before"),
            ("RECT ( 0 0 ) ( 2001 4000 )", "+ SOFT RECT ( 0 0 ) ( 1 1 )", 7, form + "+ SOFT RECT ( 0 0 ) ( 1 1 )"),
            ("( 2001 4000 )", "( 2001 x )", 7, form + "RECT ( 0 0 ) ( 2001 x )"),
            ("RECT ( 0 0 ) ( 2001 4000 )", "", 7, form),
            ("- LAYER", "- ODD", 8, "not a blockage: - ODD metal1 RECT ( 0 0 ) ( 1 1 ) ;"),
            ("END BLOCKAGES\nEND DESIGN\n", "", 6, "BLOCKAGES without END BLOCKAGES"),
            ("END BLOCKAGES\n", "", 11, "not a blockage: END DESIGN"),
        ]
        for old, new, line, reason in cases:
            with self.subTest(new):
                self.assertIn(old, DEF)
                self.fault(line, reason, SLACKS, "--def", self.file(DEF.replace(old, new), "t.def"))


if __name__ == "__main__":
    unittest.main()
