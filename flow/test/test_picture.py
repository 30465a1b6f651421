"""Tests of flow/picture.py."""
import contextlib
import io
import os
import re
import sys
import tempfile
import unittest
import xml.etree.ElementTree

HERE = os.path.dirname(os.path.abspath(__file__))
sys.path.insert(0, os.path.dirname(HERE))
import common
import picture
import spef


def path(name):
    return os.path.join(HERE, name)


SPEF, LIB, CONS, BEST = path("picture.spef"), path("picture.lib"), path("picture.cons"), path("picture_best.txt")
ALL = ["--lib", LIB, "--cons", CONS]
TRIANGLE, BALL = 'd="M-9 -10 L11 0 L-9 10 Z"', '<circle cx="14.5"'


class Drawing(unittest.TestCase):
    maxDiff = None

    def setUp(self):
        folder = tempfile.TemporaryDirectory()
        self.addCleanup(folder.cleanup)
        self.folder = folder.name

    def file(self, text):
        name = os.path.join(self.folder, f"file{len(os.listdir(self.folder))}")
        common.write_text(name, text)
        return name

    def svg(self, *words, net="n", file=SPEF):
        out = os.path.join(self.folder, "out.svg")
        picture.main([file, "--net", net, *words, "-o", out])
        text = common.read_text(out)
        xml.etree.ElementTree.fromstring(text)
        return text

    def fault(self, reason, *words, net="n", file=SPEF):
        with self.assertRaises(common.Fault) as caught:
            self.svg(*words, net=net, file=file)
        self.assertEqual(str(caught.exception).replace(HERE + os.sep, "").replace(self.folder + os.sep, ""), reason)

    def test_places(self):
        self.assertEqual(self.svg("--report", BEST, *ALL), common.read_text(path("picture_places.svg")))

    def test_tree(self):
        self.assertEqual(self.svg("--report", BEST, net="t&<1>"), common.read_text(path("picture_tree.svg")))

    def test_cells(self):
        with_library = self.svg("--report", BEST, "--lib", LIB)
        self.assertEqual((with_library.count(TRIANGLE), with_library.count(BALL)), (4, 2))  # half of them in the legend
        self.assertIn(">inverted signal<", with_library)
        without = self.svg("--report", BEST)
        self.assertEqual((without.count(TRIANGLE), without.count(">BUF<"), without.count(">cell<")), (0, 1, 1))
        self.assertNotIn(">inverted signal<", without)

    def test_wrong_polarity(self):
        self.assertEqual(self.svg("--report", BEST, *ALL).count(">wrong polarity<"), 0)
        self.assertEqual(self.svg(*ALL).count(">wrong polarity<"), 1)
        self.assertEqual(self.svg("--cons", CONS).count(">wrong polarity<"), 0)  # cells are not known without a library

    def test_reports_of_other_modes(self):
        time = self.file("net n slack 5000000000 polarity wrong z\n")
        self.assertIn(">slack 5 ps</tspan>", self.svg("--report", time))
        self.assertIn(">wrong polarity at z</tspan>", self.svg("--report", time))
        frontier = self.file("net n points 2\npoint 0 -5 cells 0\npoint 800 7 cells 1\nat n:2 BUF\n")
        self.assertIn(">cost 0.8</tspan>", self.svg("--report", frontier))
        self.assertIn(">0 cells</tspan>", self.svg("--report", frontier, "--point", "1"))
        total = self.file("total points 1\npoint 800 7\npick a 0 9 cells 0\npick n 800 7 cells 1\nat n:3 INV\n")
        self.assertEqual(self.svg("--report", total, "--point", "1", "--lib", LIB).count(BALL), 2)
        width = self.file("net n slack 5 cost 0 cells 0 wide 1\nwidth n:2 2\n")
        self.assertIn('stroke-width="6.6"', self.svg("--report", width))
        self.assertIn(">900 \u03a9, width 2<", self.svg("--report", width))

    def test_many_nodes_have_no_labels(self):
        head = common.read_text(SPEF).split("*D_NET")[0]
        wires = "".join(f"{i} n:{i} n:{i + 1} 1\n" for i in range(1, 600))
        text = f"{head}*D_NET n 0\n*CONN\n*I a:Q O\n*I b:A I\n*RES\n0 a:Q n:1 1\n{wires}600 n:600 b:A 1\n*END\n"
        svg = self.svg(file=self.file(text))
        self.assertEqual(svg.count("\u03a9"), 1)
        self.assertEqual(svg.count("<line"), 601 + 2)  # and the rule, and the wire of the legend

    def test_one_place_for_all(self):
        text = common.read_text(SPEF).replace("*C 400 100", "*C 10 100").replace("*C 210 20", "*C 10 100")
        text = re.sub(r"(\*N n:. \*C) .*", r"\1 10 100", text)
        svg = self.svg("--report", BEST, *ALL, file=self.file(text))
        self.assertNotIn("nan", svg)

    def test_numbers(self):
        for value, text in [(-0.04, "0"), (0.05001, "0.1"), (10, "10"), (2.25001, "2.3"), (-1.5, "-1.5")]:
            self.assertEqual(picture.px(value), text)
        for value, text in [(0, "0 \u03a9"), (40, "0 \u03a9"), (999_949, "999.9 \u03a9"), (1_250_040, "1.3 k\u03a9")]:
            self.assertEqual(picture.ohms(value), text)
        self.assertEqual([picture.picoseconds(zs) for zs in (-1234500000, 499999, 5 * 10**9)], ["-1.235", "0", "5"])
        self.assertEqual(picture.xml('a<"&\x01\udcff'), "a&lt;&quot;&amp;\ufffd\ufffd")

    def test_faults(self):
        self.fault("picture.spef: there is no net 'x'", net="x")
        self.fault("picture.spef:46: net loop: 13 Loop", net="loop")
        no_place = "picture.spef:33: the node 'b:A' has no place: draw the net as a tree"
        self.fault(no_place, "--layout", "places", net="t&<1>")
        self.fault("file0: the report has no net 'n'", "--report", self.file("net x slack 5 cost 0 cells 0\n"))
        head = "net a none\nnet n slack 5 cost 0 cells 1\n"
        at_sink = self.file(head + "at b:A BUF\n")
        self.fault("file1:2: the net has no inner node 'b:A' for the cell 'BUF'", "--report", at_sink)
        no_cell = self.file(head + "at n:2 BUF9\n")
        self.fault("file2:2: the library picture.lib has no cell 'BUF9'", "--report", no_cell, "--lib", LIB)
        self.fault(
            "picture.lib:11: the cell 'AND2' is no buffer and no inverter",
            "--report",
            self.file(head + "at n:2 AND2\n"),
            "--lib",
            LIB,
        )
        self.fault("picture_best.txt: the report has no point 1 for the net 'n'", "--report", BEST, "--point", "1")
        wide = self.file("net n slack 5 cost 0 cells 0 wide 1\nwidth n:9 2\n")
        self.fault(f"{os.path.basename(wide)}:1: the net has no node 'n:9'", "--report", wide)

    def test_faults_of_constraints(self):
        for text, line, reason in [
            ("", None, None),
            ("# none\nvgcons 3\n", 2, "the first line is neither 'vgcons 1' nor 'vgcons 2'"),
            ("vgcons 1\nrequire z 1\n", 2, "'require z 1' is no row of constraints"),
            ("vgcons 1\n\nrequired *1:A 1\n", 3, "'required *1:A 1' is no row of constraints"),
            ("vgcons 1\nblock\n", 2, "'block' is no row of constraints"),
            ("vgcons 1\nrequired z x\n", 2, "'x' is not a number"),
        ]:
            name = self.file(text)
            if line is None:
                self.assertEqual(picture.read_wishes(name), picture.Wishes())
            else:
                self.fault(f"{os.path.basename(name)}:{line}: {reason}", "--cons", name)

    def test_constraints(self):
        wishes = picture.read_wishes(CONS)
        self.assertEqual(wishes.required, {"z": 400_500_000_000})
        self.assertEqual((wishes.inverted, wishes.blocked, wishes.boxes), ({"z"}, {"n:1"}, [(250, 90, 350, 150)]))

    def test_words_of_the_command(self):
        for words in [[SPEF], [SPEF, "--net", "n", "--point", "1"], [SPEF, "--net", "n", "--layout", "grid"]]:
            with self.assertRaises(SystemExit), contextlib.redirect_stderr(io.StringIO()):
                picture.main(words)


class Trees(unittest.TestCase):
    def test_where_the_signal_is_inverted(self):
        net = spef.read(SPEF).nets["n"]
        scene = picture.Scene(net, spef.tree(net), {"n:2": "I", "n:3": "I"}, {}, {"I": True}, [], None)
        self.assertEqual(scene.arrives, {"n:1": False, "n:2": False, "b:A": True, "n:3": True, "z": False})


if __name__ == "__main__":
    unittest.main()
