"""Tests of flow/reports.py and flow/report.py."""
import contextlib
import io
import json
import os
import sys
import tempfile
import unittest

HERE = os.path.dirname(os.path.abspath(__file__))
sys.path.insert(0, os.path.dirname(HERE))
import common
import report
import reports

BEFORE, AFTER = os.path.join(HERE, "report_before.txt"), os.path.join(HERE, "report_after.txt")
STA = "design worst -5 end z\nnet a slack -5\nnet b slack 7\n"
FRONTIER = """\
net a points 2
point 0 -9000000001 cells 0
point 1500 2000000000 cells 1
at a:1 BUF_X1
net b none
"""
TOTAL = """\
net r refused 13 Loop
total points 2
point 0 -5
pick a 0 7 cells 0
pick b 0 -5 cells 0
point 800 7
pick a 0 7 cells 0
pick b 800 9 cells 1
at b:1 BUF_X1
"""
WIDTH = "net a slack 5 cost 800 cells 1 wide 2\nat a:1 BUF_X1\nwidth a:1 2\nwidth u:A 1\n"
REPAIR = """\
net a slack -5 cost 800 cells 1
at a:1 BUF_X1
net b none
repair nets 2 met 0 short 1 none 1 refused 0 worst -5
"""


def text_of(text, *words, after=None):
    """What is printed of one report or of two, with these options."""
    second = after and reports.parse(after, "after.txt")
    files = ["before.txt"] + ["after.txt"] * (after is not None)
    return report.text_of(reports.parse(text, "before.txt"), second, report.arguments([*files, *words]))


class Reading(unittest.TestCase):
    def test_modes(self):
        for text, mode in [
            (STA, "sta"),
            ("design refused Cycle a\n", "sta"),
            ("design refused NoPath\n", "sta"),
            (FRONTIER, "frontier"),
            (TOTAL, "total"),
            ("total none\n", "total"),
            (WIDTH, "width"),
            (REPAIR, "repair"),
            ("net a slack 5 cost 0 cells 0\n", "best"),
            ("net a slack 5 polarity right\n", "time"),
            ("net a parts 2 nodes 5\n", "segment"),
            ("net a total 250000\nsink u2:A 350000000000\n", "wire"),
            ("net a refused 13 Loop\n", None),
        ]:
            self.assertEqual(reports.parse(text, "r").mode, mode, text)

    def test_repair(self):
        read = reports.read(AFTER)
        self.assertEqual((read.mode, read.summary.met, read.summary.worst), ("repair", 2, -16021940000))
        self.assertEqual(read.net("rdy").cells, [("rdy:1", "BUF_X8")])
        self.assertEqual(read.net("_99_").refused, "2 Section Number Form line 24")
        self.assertTrue(read.net("ctl/sel_n").none)

    def test_outcome_is_the_last_point(self):
        self.assertEqual([net.slack for net in reports.parse(FRONTIER, "r").outcome()], [2000000000, None])
        found = [(net.name, net.slack, net.cells) for net in reports.parse(TOTAL, "r").outcome()]
        self.assertEqual(found, [("r", None, []), ("a", 7, []), ("b", 9, [("b:1", "BUF_X1")])])

    def test_widths(self):
        self.assertEqual(reports.parse(WIDTH, "r").nets[0].widths, [("a:1", 2), ("u:A", 1)])

    def test_names_are_not_split_at_other_blanks(self):
        self.assertEqual(reports.parse("net a\x0b\x85b none\n", "r").nets[0].name, "a\x0b\x85b")


class Faults(unittest.TestCase):
    def check(self, text, line, reason, mode=None):
        with self.assertRaises(common.Fault) as caught:
            reports.parse(text, "r.txt", mode)
        self.assertEqual(str(caught.exception), f"r.txt:{line}: {reason}")

    def test_lines(self):
        first = "net a slack 5 cost 0 cells 0\n"
        self.check("", 1, "the report has no line: the run failed, or there is no net")
        self.check(first + "net b none", 2, "the last line has no line feed: the report is cut off")
        self.check(first + "net b slack x\n", 2, "a line of no known form: 'net b slack x'")
        self.check(first + "net b  none\n", 2, "a line of no known form: 'net b  none'")
        self.check(first + "\n", 2, "a line of no known form: ''")
        self.check(first + first, 2, "the net 'a' is there twice")
        self.check(first + "net b points 1\n", 2, "a line of mode frontier in a report of mode best or repair")
        self.check("net a slack 5\n", 1, "the first line of mode sta is missing")

    def test_counts(self):
        head = "net a slack 5 cost 800 cells 1\n"
        self.check(head, 1, "1 cells are told, and there are 0")
        self.check(head + "net b none\n", 1, "1 cells are told, and there are 0")
        self.check(head + "at a:1 B\nat a:2 B\n", 3, "no cell is expected here")
        self.check("at a:1 B\n", 1, "no cell is expected here")
        self.check(WIDTH.replace("wide 2", "wide 3"), 1, "3 widths are told, and there are 2")
        self.check(WIDTH.replace("wide 2", "wide 1"), 4, "no width is expected here")
        self.check(FRONTIER.replace("points 2", "points 3"), 1, "3 points are told, and there are 2")
        self.check(FRONTIER.replace("points 2", "points 1"), 3, "no point is expected here")
        self.check(FRONTIER.replace("point 1500", "point 0"), 3, "the points do not rise in cost and slack")

    def test_repair(self):
        short = REPAIR[: REPAIR.index("repair")]
        self.check(short, 3, "the line 'repair ..' of mode repair is missing: the report is cut off", "repair")
        self.assertEqual(reports.parse(short, "r").mode, "best")
        self.check(REPAIR.replace("none 1", "none 0"), 4, "the counts are not those of the lines before")
        self.check(REPAIR.replace("worst -5", "worst -4"), 4, "the slack is not the least one of the lines before")
        self.check(REPAIR + "net c none\n", 5, "a line after the last one of mode repair")
        self.check(STA, 1, "this is no report of mode time, but of sta", "time")

    def test_sta(self):
        self.check(STA.replace("worst -5", "worst -6"), 1, "the slack of the design is not the least one of its nets")
        self.check("net a refused 13 Loop\n" + STA, 2, "the line of the design is not the first one")
        self.check("design refused NoPath\nnet a slack 5\n", 2, "no net is expected here")

    def test_total(self):
        self.check(TOTAL.replace("points 2", "points 3"), 9, "3 points are told, and there are 2")
        self.check(TOTAL.replace("points 2", "points 1"), 6, "no point is expected here")
        self.check(TOTAL.replace("point 800", "point 900"), 6, "the picks do not cost 900 together")
        self.check(TOTAL.replace("point 0 -5", "point 0 -6"), 3, "the least slack of the picks is not -6")
        self.check(
            TOTAL.replace("pick a 0 7 cells 0\npick b 8", "pick b 8"),
            6,
            "the picks of this point are not each net once, as at the first point",
        )
        self.check(TOTAL.replace("pick a", "pick r"), 4, "the net 'r' is refused, and picked")


class Printing(unittest.TestCase):
    maxDiff = None

    def test_table(self):
        self.assertEqual(
            text_of(common.read_text(AFTER)),
            """\
net        slack (ps)   area  cells  state    reason
---------  ----------  -----  -----  -------  -----------------------------
clk             7.196  0.000      0  ok
acc[3]        -16.022  3.900      3  ok
ctl/sel_n                            none
_99_                                 refused  2 Section Number Form line 24
rdy            91.200  3.500      1  ok

whole report
-------------------------  -------
mode                        repair
nets                             5
worst slack (ps)           -16.022
worst net                   acc[3]
late nets                        1
total negative slack (ps)  -16.022
nets that meet the target        2
nets short of the target         1
refused                          1
none                             1
cells                            4
area                         7.400
""",
        )

    def test_comparison(self):
        printed = text_of(common.read_text(BEFORE), after=common.read_text(AFTER))
        self.assertEqual(printed, common.read_text(os.path.join(HERE, "report_compared.txt")))

    def test_csv_is_exact(self):
        self.assertEqual(
            text_of(common.read_text(BEFORE), "--format", "csv"),
            "net,slack_ps,polarity,wrong_at,state,reason\n"
            "clk,7.19648,right,,ok,\n"
            "acc[3],-540.25358,wrong,_24_:B,ok,\n"
            "ctl/sel_n,-369.2850405,right,,ok,\n"
            "_99_,,,,refused,1 UnknownNet\n",
        )
        rows = text_of(FRONTIER, "--format", "csv").split("\n")
        self.assertEqual(rows[1:4], ["a,1,0,0,-9.000000001,ok,", "a,2,1.5,1,2,ok,", "b,,,,,none,"])
        wire = text_of("net a total 5\nsink u:A 1\n", "--format", "csv")
        self.assertEqual(wire.split("\n")[1], "a,0.005,u:A,0.000000001,ok,")

    def test_json_is_exact(self):
        slack = "-123456789012345678901234567"
        text = text_of(f"net a slack {slack} cost 1 cells 1\nat a:1 B\n", "--format", "json")
        self.assertIn('"slack_ps": -123456789012345678.901234567,', text)
        row = json.loads(text)["rows"][0]
        self.assertEqual((row["area"], row["cells"], row["placement"]), (0.001, 1, [{"node": "a:1", "cell": "B"}]))
        total = json.loads(text_of(TOTAL, "--format", "json"))
        self.assertEqual([pick["net"] for pick in total["rows"][1]["picks"]], ["a", "b"])
        self.assertEqual(total["rows"][2]["reason"], "13 Loop")
        both = json.loads(text_of(STA, "--format", "json", after=STA.replace("-5", "-4")))
        self.assertEqual(sorted(both), ["after", "before", "change", "rows"])
        widths = json.loads(text_of(WIDTH, "--format", "json"))["rows"][0]["widths"]
        self.assertEqual(widths[0], {"node": "a:1", "width": 2})

    def test_names_that_are_no_text(self):
        self.assertEqual(json.loads(text_of('net "\udcff none\n', "--format", "json"))["rows"][0]["net"], '"\udcff')

    def names(self, *words, before=None, after=None):
        before = common.read_text(BEFORE) if before is None else before
        lines = text_of(before, "--format", "csv", *words, after=after).split("\n")
        return [line.split(",")[0] for line in lines[1:-1]]

    def test_which_rows(self):
        self.assertEqual(self.names("--sort", "slack"), ["acc[3]", "ctl/sel_n", "clk", "_99_"])
        self.assertEqual(self.names("--sort", "name"), ["_99_", "acc[3]", "clk", "ctl/sel_n"])
        self.assertEqual(self.names("--worst", "1"), ["acc[3]"])
        self.assertEqual(self.names("--worst", "9", "--sort", "file"), ["clk", "acc[3]", "ctl/sel_n"])
        self.assertEqual(self.names("--late"), ["acc[3]", "ctl/sel_n"])
        after = common.read_text(AFTER)
        self.assertEqual(self.names("--late", after=after), ["acc[3]", "ctl/sel_n"])
        self.assertEqual(self.names("--worst", "2", after=after), ["ctl/sel_n", "acc[3]"])

    def test_changed(self):
        time = "net a slack 5 polarity right\nnet b slack 7 polarity wrong b:A\nnet c slack 7 polarity right\n"
        time += "net d refused 13 Loop\n"
        best = "net a slack 5 cost 0 cells 0\nnet b slack 7 cost 0 cells 0\nnet c slack 8 cost 0 cells 0\n"
        best += "net d refused 13 Loop\nnet e none\n"
        self.assertEqual(self.names("--changed", before=time, after=best), ["b", "c", "e"])
        cells = "net a slack 5 cost 1 cells 1\nat a:1 B\n"
        self.assertEqual(self.names("--changed", before="net a slack 5 polarity right\n", after=cells), ["a"])
        self.assertEqual(self.names("--changed", before=cells, after=cells), [])

    def test_no_row(self):
        self.assertTrue(text_of("net a slack 5 polarity right\n", "--late").startswith("no row\n\nwhole report"))

    def test_rounding(self):
        slacks = [(500_000, "0.001"), (499_999, "0.000"), (-500_000, "-0.001"), (-1, "-0.000"), (999_999_999, "1.000")]
        for zs, text in slacks:
            self.assertEqual(report.shown(zs, report.PS), text)

    def test_program(self):
        with tempfile.TemporaryDirectory() as folder:
            out = os.path.join(folder, "out.csv")
            report.main([BEFORE, AFTER, "--format", "csv", "--late", "-o", out])
            self.assertEqual(common.read_text(out).count("\n"), 3)
            wire = os.path.join(folder, "wire.txt")
            common.write_text(wire, "net a total 5\n")
            with self.assertRaisesRegex(common.Fault, "a report of mode wire has no slacks to compare"):
                report.main([BEFORE, wire])
            with self.assertRaisesRegex(common.Fault, "this is no report of mode best, but of time"):
                report.main([BEFORE, "--mode", "best"])
        for words in [[], [BEFORE, "--worst", "0"], [BEFORE, "--format", "xml"], [BEFORE, "--changed"]]:
            with self.assertRaises(SystemExit), contextlib.redirect_stderr(io.StringIO()):
                report.main(words)


if __name__ == "__main__":
    unittest.main()
