"""Tests of the loop in flow/close.sh, with programs in the place of OpenSTA and vginsert that answer as a test says."""
import os
import subprocess
import sys
import tempfile
import unittest

HERE = os.path.dirname(os.path.abspath(__file__))
sys.path.insert(0, os.path.dirname(HERE))
import common

CLOSE = os.path.join(os.path.dirname(HERE), "close.sh")
STA = """#!/bin/sh
number=$(basename "$OUT" .slacks)
cat "$ANSWERS/log.$number" 2>/dev/null
[ ! -e "$ANSWERS/$number" ] || cp "$ANSWERS/$number" "$OUT"
"""
VGINSERT = """#!/bin/sh
number=1
while [ -e "$ANSWERS/words.$number" ]; do number=$((number + 1)); done
echo "$*" >"$ANSWERS/words.$number"
while [ $# -gt 0 ]; do
    case $1 in
        --spef) spef=$2 ;;
        --verilog) verilog=$2 ;;
        --out-spef) cp "$spef" "$2" ;;
        --out-verilog) { cat "$verilog"; echo "// vg${number}_"; } >"$2" ;;
    esac
    shift
done
cat "$ANSWERS/report.$number"
exit "$(cat "$ANSWERS/status.$number" 2>/dev/null || echo 0)"
"""


class Close(unittest.TestCase):
    def setUp(self):
        folder = tempfile.TemporaryDirectory()
        self.addCleanup(folder.cleanup)
        self.folder = folder.name
        for name, text in (("sta", STA), ("vginsert", VGINSERT)):
            common.write_text(self.path(name), text)
            os.chmod(self.path(name), 0o755)
        for name in ("v.v", "t.lib", "s.sdc"):
            common.write_text(self.path(name), "")

    def path(self, name):
        return os.path.join(self.folder, name)

    def answer(self, slacks, cells, **more):
        """The slacks (ps) of pass 0, 1, .. and the cells of pass 1, .."""
        for number, (wns, tns) in enumerate(slacks):
            text = f"vgslacks 1\nwns {wns}\ntns {tns}\nlate 1\ncells BUF {6 + number}\n"
            common.write_text(self.path(f"pass{number}"), text)
        for number, count in enumerate(cells, 1):
            text = f"net a slack 1 cost 1 cells {count}\nnet b refused 13 Loop\n"
            text += "repair nets 5 met 1 short 2 none 1 refused 1 worst 1\n"
            common.write_text(self.path(f"report.{number}"), text)
        for name, text in more.items():
            common.write_text(self.path(name.replace("_", ".")), text)

    def run_close(self, *words):
        """The status, the rows of the table after the heading without blanks, the last line, and standard error."""
        names = {"lib": "t.lib", "verilog": "v.v", "sdc": "s.sdc", "out": "out folder"}
        options = [word for name, file in names.items() for word in (f"--{name}", self.path(file))]
        options += ["--spef", os.path.join(HERE, "slacks.spef"), "--linear", os.path.join(HERE, "slacks.lib")]
        options += ["--top", "t"]
        answers = {"ANSWERS": self.folder, "STA": self.path("sta"), "VGINSERT": self.path("vginsert")}
        run = subprocess.run(
            [CLOSE, *options, *words], env={**os.environ, **answers}, capture_output=True, text=True, check=False
        )
        lines = run.stdout.splitlines()
        return run.returncode, [" ".join(line.split()) for line in lines[1:-1]], (lines or [""])[-1], run.stderr

    def result(self):
        return common.read_text(self.path("out folder/final.v"))

    def words(self, number):
        return common.read_text(self.path(f"words.{number}"))

    def test_met(self):
        self.answer([("-5.5", "-6"), ("3", "0")], [4], status_1="2")
        status, rows, last, _ = self.run_close()
        self.assertEqual(status, 0)
        self.assertEqual(rows, ["0 -5.5 -6 1 - 6 15 - -", "1 3 0 1 4 7 17.5 3 1"])
        self.assertTrue(last.startswith("The worst slack is 0 ps or more. The result is that of pass 1: "))
        self.assertEqual(self.result(), "// vg1_\n")
        self.assertIn("--mode repair --target=0 --all", self.words(1))
        self.assertIn("--prefix vg1_", self.words(1))

    def test_met_from_the_start(self):
        self.answer([("0.5", "0")], [])
        last = self.run_close()[2]
        self.assertTrue(last.startswith("The worst slack is 0 ps or more. The result is that of pass 0: "))
        self.assertEqual(self.result(), "")

    def test_worse(self):
        self.answer([("-5", "-6"), ("-4", "-9"), ("-4.1", "-5")], [4, 4])
        status, rows, last, _ = self.run_close()
        self.assertEqual((status, len(rows)), (0, 3))
        self.assertTrue(last.startswith("Pass 2 makes no slack better. The result is that of pass 1: "))
        self.assertEqual(self.result(), "// vg1_\n")

    def test_no_cell(self):
        self.answer([("-5", "-6"), ("-5", "-5")], [4, 0])
        self.assertTrue(self.run_close()[2].startswith("Pass 2 places no cell. The result is that of pass 1: "))

    def test_all_passes(self):
        self.answer([("-5", "-6"), ("-3", "-3")], [4])
        last = self.run_close("--passes", "1", "--mode", "best")[2]
        self.assertTrue(last.startswith("All passes are done, and the worst slack is below 0 ps. The result is "))
        self.assertIn("--mode best --all", self.words(1))

    def test_steps(self):
        """Asks for a part of what is lacking and 10 ps at least; a pass that is not kept doubles the step."""
        self.answer([("-500", "-500"), ("-40", "-40"), ("-41", "-41"), ("10", "0")], [4, 4, 4])
        _, rows, last, _ = self.run_close("--step", "0.2", "--target", "5")
        self.assertEqual(rows[3], "Pass 2 makes no slack better: it is not kept, and the step is now 0.4")
        self.assertTrue(last.startswith("The worst slack is 5 ps or more. The result is that of pass 3: "))
        targets = [self.words(number).split()[2] for number in (1, 2, 3)]
        self.assertEqual(targets, ["--target=-399.000000", "--target=-30.000000", "--target=-22.000000"])
        self.assertEqual(self.result(), "// vg1_\n// vg3_\n")

    def test_taken_prefix(self):
        common.write_text(self.path("v.v"), "wire vg1_n0, vg2_n0;\n")
        self.answer([("-5", "-6"), ("3", "0")], [4])
        self.run_close()
        self.assertIn("--prefix vg3_", self.words(1))

    def test_failure_of_opensta(self):
        self.answer([("-5", "-6")], [4])
        status, _, _, errors = self.run_close()
        self.assertEqual(status, 1)
        self.assertIn("close.sh: OpenSTA failed at pass 1; ", errors)

    def test_failure_of_vginsert(self):
        self.answer([("-5", "-6"), ("3", "0")], [4], status_1="4")
        status, _, _, errors = self.run_close()
        self.assertEqual(status, 4)
        self.assertTrue(errors.endswith("close.sh: vginsert failed at pass 1 with status 4\n"))

    def test_errors_and_lost_names(self):
        warning = f"Warning: {self.path('out folder/pass1.spef')}, line 2 net n not found.\n"
        self.answer([("-5", "-6"), ("3", "0")], [4], log_pass1=warning)
        status, _, _, errors = self.run_close()
        self.assertEqual(status, 1)
        self.assertIn("OpenSTA does not find all names of ", errors)
        self.answer([("-5", "-6")], [], log_pass0="Error: t.lib, line 3\n")
        status, _, _, errors = self.run_close()
        self.assertEqual(status, 1)
        self.assertIn("Error: t.lib, line 3\nclose.sh: OpenSTA failed at pass 0; ", errors)

    def test_help(self):
        run = subprocess.run([CLOSE, "--help"], capture_output=True, text=True, check=True)
        self.assertTrue(run.stdout.startswith("Closes timing with repeaters: "))
        self.assertTrue(run.stdout.endswith("are a failure.\n"))

    def test_words(self):
        cases = [
            (("--mode", "x"), "--mode x is neither repair nor best"),
            (("--mode", "best", "--cap", "5"), "--step and --cap belong to mode repair"),
            (("--mode", "best", "--step", ".5"), "--step and --cap belong to mode repair"),
            (("--step", "0"), "--step 0 is not over 0 and up to 1"),
            (("--passes", "x"), "--passes x is not a number"),
            (("--target", "x"), "--target x is not a number of ps"),
            (("--target",), "the option --target has no value"),
            (("--word", "1"), "there is no option --word"),
            (("--sdc", "/nothere"), "the file /nothere cannot be read"),
            (("--top", ""), "the option --top is missing"),
        ]
        for words, reason in cases:
            with self.subTest(words):
                self.assertEqual(self.run_close(*words)[0::3], (1, f"close.sh: {reason}\n"))


if __name__ == "__main__":
    unittest.main()
