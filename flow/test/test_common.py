"""Tests of flow/common.py: numbers, files and tables."""
import contextlib
import io
import os
import sys
import tempfile
import unittest
from unittest import mock

HERE = os.path.dirname(os.path.abspath(__file__))
sys.path.insert(0, os.path.dirname(HERE))
import common


class Numbers(unittest.TestCase):
    def test_whole(self):
        for text, places, number in [
            ("1.4999999999999999999999999999999999999999", 0, 1), ("1.5", 0, 2), ("0.5", 0, 1), ("0.4999", 0, 0),
            (".5", 1, 5), ("5.", 0, 5), ("+1.0005", 3, 1001), ("12e-1", 0, 1), ("15E-1", 0, 2), ("-0.0", 2, 0),
            ("0e99999999999999999999", 3, 0), ("1e-00000000000000000000000000000002", 3, 10),
            ("1" * 6000 + "e-5999", 3, 1111), ("1e-99999999999999999999", 9, 0), ("1000000000000", 3, 10**15),
            ("0.05", 1, 1), ("0.049", 1, 0), ("0.005", 1, 0), ("1000000000000.0004", 3, 10**15),
        ]:
            self.assertEqual(common.whole(text, places), number, text)

    def test_faults(self):
        for text, kind, reason in [
            ("", "Form", "'' is not a number"), (".", "Form", "'.' is not a number"),
            ("1_0", "Form", "'1_0' is not a number"), ("nan", "Form", "'nan' is not a number"),
            ("1 ps", "Form", "'1 ps' is not a number"), ("e5", "Form", "'e5' is not a number"),
            ("\u0661", "Form", "'\u0661' is not a number"), ("1\n", "Form", "'1\n' is not a number"),
            ("-1", "Negative", "the number -1 is negative"), ("-1e99", "Negative", "the number -1e99 is negative"),
            ("-0.0001", "Negative", "the number -0.0001 is negative"),
            ("1000000000000.001", "TooLarge", "the number 1000000000000.001 is too large"),
            ("1e999999999999999999", "TooLarge", "the number 1e999999999999999999 is too large"),
        ]:
            with self.assertRaises(common.NumberFault) as caught:
                common.whole(text, 3, "f", 7)
            fault = caught.exception
            self.assertEqual((fault.kind, str(fault)), (kind, f"f:7: {reason}"))

    def test_signed(self):
        for text, number in [
            ("-1.5", -2), ("-0.5", -1), ("-0.4", 0), ("123456789012345678901234", None), ("-1e24", None),
            ("-1e23", -(10**23)), ("99999999999999999999999.4", 10**23 - 1), ("1e99", None),
        ]:
            if number is None:
                with self.assertRaises(common.NumberFault):
                    common.signed(text, 0)
            else:
                self.assertEqual(common.signed(text, 0), number, text)

    def test_rounded_off(self):
        for number, rounded in [(149, 1), (150, 2), (-150, -2), (-149, -1), (0, 0), (50, 1), (49, 0), (-49, 0)]:
            self.assertEqual(common.rounded_off(number, 2), rounded, number)

    def test_decimal_text(self):
        for number, places, text in [(1234, 3, "1.234"), (-5, 3, "-0.005"), (10, 1, "1"), (0, 9, "0"), (7, 0, "7")]:
            self.assertEqual(common.decimal_text(number, places), text)
            self.assertEqual(common.signed(text, places), number)


class Files(unittest.TestCase):
    def setUp(self):
        folder = tempfile.TemporaryDirectory()
        self.addCleanup(folder.cleanup)
        self.folder = folder.name

    def path(self, name):
        return os.path.join(self.folder, name)

    def test_text_and_bytes(self):
        text = "a\r\n\udcff\u00b5"
        common.write_text(self.path("f"), text)
        self.assertEqual(common.read_text(self.path("f")), text)
        self.assertEqual(os.listdir(self.folder), ["f"])

    def test_links_and_pipes(self):
        """A link stays, and its file is replaced; what is no regular file is written in place."""
        common.write_text(self.path("file"), "old")
        os.symlink(self.path("file"), self.path("link"))
        common.write_text(self.path("link"), "new")
        self.assertTrue(os.path.islink(self.path("link")))
        self.assertEqual(common.read_text(self.path("file")), "new")
        common.write_text("/dev/null", "nothing")
        self.assertFalse(os.path.isfile("/dev/null"))
        os.mkfifo(self.path("pipe"))
        end = os.open(self.path("pipe"), os.O_RDONLY | os.O_NONBLOCK)
        common.write_text(self.path("pipe"), "through")
        self.assertEqual(os.read(end, 99), b"through")
        os.close(end)

    def test_faults(self):
        for path in (self.path("no/file"), self.folder):
            with self.assertRaises(common.Fault) as caught:
                common.write_text(path, "text")
            self.assertEqual(caught.exception.file, path)
        with self.assertRaises(common.Fault):
            common.read_text(self.path("none"))

    def test_output(self):
        common.put_text("a file", self.path("f"))
        self.assertEqual(common.read_text(self.path("f")), "a file")
        out = io.TextIOWrapper(io.BytesIO(), encoding="ascii", newline="\n")
        with contextlib.redirect_stdout(out):
            common.put_text("\u00b5\udcff\n")
        out.flush()
        self.assertEqual(out.buffer.getvalue(), b"\xc2\xb5\xff\n")

    def test_aligned(self):
        lines = list(common.aligned([["a", "b", "c"], ["long", "1", ""], ["x", "", "22"]], [True, False, False]))
        self.assertEqual(lines, ["a     b   c", "long  1", "x        22"])


class Runs(unittest.TestCase):
    def test_fault(self):
        def main():
            raise common.Fault("a reason", "f.txt", 3)

        said = io.StringIO()
        with mock.patch.object(sys, "argv", ["/x/script.py"]), contextlib.redirect_stderr(said):
            with self.assertRaises(SystemExit) as caught:
                common.run(main)
        self.assertEqual((caught.exception.code, said.getvalue()), (1, "script.py: f.txt:3: a reason\n"))


if __name__ == "__main__":
    unittest.main()
