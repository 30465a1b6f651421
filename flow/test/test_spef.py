"""Tests of flow/spef.py: what is read of a file, its faults, trees and delays, and escapes for OpenSTA."""
import os
import sys
import tempfile
import unittest

HERE = os.path.dirname(os.path.abspath(__file__))
sys.path.insert(0, os.path.dirname(HERE))
import common
import spef

HEADER = """*SPEF "IEEE 1481-1998"
*DESIGN "t"
*DATE "none"
*VENDOR "none"
*PROGRAM "none"
*VERSION "1"
*DESIGN_FLOW "none"
*DIVIDER /
*DELIMITER :
*BUS_DELIMITER [ ]
*T_UNIT 1 PS
*C_UNIT 1 FF
*R_UNIT 1 OHM
*L_UNIT 1 HENRY
"""
NET = """*D_NET n1 200
*CONN
*I u1:Z O
*I u2:A I
*CAP
1 n1:1 100
2 u2:A 100
*RES
1 u1:Z n1:1 1000
2 n1:1 u2:A 1000
*END
"""


class Files(unittest.TestCase):
    """Writes texts to a folder of their own."""

    def setUp(self):
        self.folder = tempfile.TemporaryDirectory()
        self.addCleanup(self.folder.cleanup)

    def file(self, text, name="t.spef"):
        path = os.path.join(self.folder.name, name)
        common.write_text(path, text)
        return path

    def read(self, text):
        return spef.read(self.file(text))

    def fault(self, text, line, reason):
        """The text has this fault at this line."""
        with self.assertRaises(common.Fault) as caught:
            self.read(text)
        self.assertEqual((caught.exception.line, caught.exception.reason), (line, reason))


class Reads(Files):
    def test_net(self):
        net = self.read(HEADER + NET).nets["n1"]
        self.assertEqual(net.line, 15)
        self.assertEqual([pin[:3] for pin in net.connections], [("u1:Z", "I", "O"), ("u2:A", "I", "I")])
        self.assertEqual(net.nodes, ["u1:Z", "u2:A", "n1:1"])
        self.assertEqual(net.inner_nodes(), ["n1:1"])
        self.assertEqual(net.capacitors, {"n1:1": 100000, "u2:A": 100000})
        self.assertEqual(net.resistors, [("u1:Z", "n1:1", 1000000), ("n1:1", "u2:A", 1000000)])

    def test_extractor(self):
        """spef1.spef has a name map, escapes, comments, three corners, coupling capacitors and other units."""
        found = spef.read(os.path.join(HERE, "spef1.spef"))
        self.assertEqual(list(found.nets), ["core/data[3]", "clk", "a+b", "out", "red"])
        data = found.nets["core/data[3]"]
        self.assertIsNone(data.fault)
        self.assertEqual(data.connections[1], spef.Connection("core/u2:A", "I", "I", "NAND2X1"))
        self.assertEqual(data.positions["core/data[3]:1"], (3.0, 5.0))
        self.assertEqual(data.capacitors, {"core/data[3]:1": 22000, "core/u2:A": 4000, "core/data[3]:2": 8000})
        self.assertEqual(data.resistors[0], ("core/u1:Z", "core/data[3]:1", 100000))
        self.assertEqual(spef.driver(found.nets["clk"]), spef.Connection("clk", "P", "I", None))
        self.assertTrue(found.nets["red"].reduced)

    def test_other_marks(self):
        header = HEADER.replace("*DIVIDER /", "*DIVIDER .").replace("*DELIMITER :", "*DELIMITER |").replace("[ ]", "<>")
        net = self.read(header + NET.replace(":", "|").replace("n1", "a.n<1>").replace("u1", "a\\.u1")).nets["a/n[1]"]
        self.assertEqual(net.nodes, ["a.u1:Z", "u2:A", "a/n[1]:1"])

    def test_units(self):
        header = HEADER.replace("*C_UNIT 1 FF", "*C_UNIT 0.01 pf").replace("*R_UNIT 1 OHM", "*R_UNIT 10.0 KOHM")
        net = self.read(header + NET.replace("1000", "0.0035")).nets["n1"]
        self.assertEqual(net.capacitors["n1:1"], 1000000)
        self.assertEqual(net.resistors[0][2], 35000)

    def test_header_text_continues(self):
        self.assertEqual(list(self.read(HEADER.replace('*DATE "none"', '*DATE "none"\n"more"') + NET).nets), ["n1"])

    def test_comments(self):
        text = HEADER + NET.replace("1 n1:1 100", '1 /* 7 \n */ n1:1 100 // "no string').replace("*CAP", "*CAP /* x */")
        net = self.read(text.replace("1 /* 7 \n */ n1:1", "1 n1:1")).nets["n1"]
        self.assertEqual(net.capacitors["n1:1"], 100000)
        self.assertEqual(self.read(text).nets["n1"].fault.line, 20)

    def test_odd_blanks_are_no_blanks(self):
        self.assertEqual(self.read((HEADER + NET).replace("\n", "\r\n")).nets["n1"].nodes, ["u1:Z", "u2:A", "n1:1"])
        self.assertEqual(self.read(HEADER + NET.replace("1 n1:1", "1\x0bn1:1")).nets["n1"].fault.line, 20)


class Faults(Files):
    def test_header(self):
        self.fault("", 1, "the header has no line *SPEF")
        self.fault(HEADER.replace('*VERSION "1"\n', ""), 6, "*VERSION with a value expected, as a line of the header")
        self.fault(HEADER.replace("*DIVIDER /", "*DIVIDER ;"), 8, "*DIVIDER is not one of / . : |")
        self.fault(HEADER.replace("[ ]", "[ )"), 10, "*BUS_DELIMITER is not one of [ ] { } ( ) < >")
        reason = "*C_UNIT is not a power of ten from 0.001 to 1000 and one of FF PF"
        self.fault(HEADER.replace("1 FF", "25 FF"), 12, reason)
        self.fault(HEADER.replace("1 FF", "1 F"), 12, reason)

    def test_body(self):
        self.fault(HEADER + NET + NET, 26, "a second net n1")
        self.fault(HEADER + NET.replace("*END\n", ""), 15, "the net n1 has no *END")
        self.fault(HEADER + NET.replace("n1 200", "*7 200"), 15, "*7 is not in the name map")
        self.fault(HEADER + NET.replace("n1 200", "n\\ 200"), 15, "n\\ is not a name")
        self.fault(HEADER + NET + "stray\n", 26, "a line that belongs to no part")
        self.fault(HEADER + "*DEFINE a b\n", 15, "*DEFINE is not supported")
        self.fault(HEADER + "*NAME_MAP\n*1 a\n*1 b\n", 17, "the index *1 was mapped before")
        self.fault(HEADER + "*NAME_MAP\n*1 a b\n", 16, "not a row of the name map")

    def test_section(self):
        """The fault of a net is that of its first faulty line, and no fault of the file."""
        cases = [
            ("*I u2:A I", "*I u2:A X", 18, "Conn"),
            ("*I u2:A I", "*I u1:Z I", 18, "Conn"),
            ("*I u2:A I", "*P u2:A I", 18, "Conn"),
            ("*I u2:A I", "*N n1:x", 18, "Conn"),
            ("1 n1:1 100", "1 n1:1", 20, "Cap"),
            ("1 n1:1 100", "1 n2:1 100", 20, "Foreign"),
            ("1 n1:1 100", "1 n1:1 n1:2 100", 20, "SelfCoupled"),
            ("1 n1:1 100", "1 n1:1 1:2", 20, "Number Form"),
            ("1 n1:1 100", "1 n1:1 1e", 20, "Number Form"),
            ("1 n1:1 100", "1 n1:1 -0.1", 20, "Number Negative"),
            ("1 n1:1 100", "1 n1:1 1e99", 20, "Number TooLarge"),
            ("n1:1 u2:A 1000", "n1:1 u2:A", 24, "Res"),
            ("n1:1 u2:A 1000", "n1:1 u3:A 1000", 24, "Foreign"),
            ("n1:1 u2:A 1000", "*3:1 u2:A 1000", 24, "Res"),
        ]
        for old, new, line, kind in cases:
            with self.subTest(new):
                net = self.read(HEADER + NET.replace(old, new)).nets["n1"]
                self.assertEqual((net.fault.line, net.fault.reason), (line, f"net n1: 2 Section {kind}"))
                with self.assertRaises(spef.Refused):
                    spef.tree(net)


class Trees(Files):
    def refused(self, text, reason):
        net = self.read(HEADER + text).nets["n1"]
        with self.assertRaises(spef.Refused) as caught:
            spef.tree(net)
        self.assertEqual((caught.exception.reason, caught.exception.line), (f"net n1: {reason}", 15))

    def test_refused(self):
        self.refused(NET.replace("*D_NET", "*R_NET"), "3 Reduced")
        self.refused(NET.replace("*END", "*INDUC\n*END"), "4 Inductive")
        self.refused(NET.replace("u2:A I", "u2:A B"), "5 Bidirectional")
        self.refused(NET.replace("u1:Z O", "u1:Z I"), "6 NoDriver")
        self.refused(NET.replace("u2:A I", "u2:A O"), "7 ManyDrivers")
        self.refused(NET.replace("2 n1:1 u2:A 1000\n", ""), "12 Floating u2:A")
        self.refused(NET.replace("*END", "3 u1:Z u2:A 1\n*END"), "13 Loop")

    def test_order(self):
        net = self.read(HEADER + NET.replace("*END", "3 n1:2 u1:Z 5\n*END")).nets["n1"]
        expected = [("u1:Z", None, 0), ("n1:1", "u1:Z", 10**6), ("n1:2", "u1:Z", 5000), ("u2:A", "n1:1", 10**6)]
        self.assertEqual([tuple(branch) for branch in spef.tree(net)], expected)

    def test_delays(self):
        """1,000 ohms with 202 fF below and 1,000 ohms with 102 fF below; the driver's own load counts nothing."""
        net = self.read(HEADER + NET).nets["n1"]
        delays, total = spef.wire_delays(net, {"u2:A": 2000, "u1:Z": 77})
        self.assertEqual(total, 202000)
        self.assertEqual(delays, {"u1:Z": 0, "n1:1": 202 * 10**9, "u2:A": 304 * 10**9})


class Escapes(Files):
    def test_identifiers(self):
        text = "module m; // \\x[1] \n wire \\a[3] ; /* \\y[1] */\n"
        text += "(* s = \"\\z[1] \" *) wire \\u.v , \\g[1].w ;\nendmodule\n"
        self.assertEqual(spef.bracketed_identifiers(text), {"a[3]", "g[1].w"})

    def test_words(self):
        names, identifiers = spef.Names(), {"a[3]", "g[1].w", "r[0]"}
        cases = [
            ("a[3]", "a\\[3\\]"),
            ("a\\[3\\]", "a\\[3\\]"),
            ("a[4]", "a[4]"),
            ("a[3]:12", "a\\[3\\]:12"),
            ("g[1]\\.w[2]:7", "g\\[1\\]\\.w[2]:7"),
            ("r[0]:D[0]", "r\\[0\\]:D[0]"),
            ("[", "["),
        ]
        text = "\n".join(f"1 {word} 2" for word, _ in cases)
        self.assertEqual(
            spef.escape_brackets(text, names, identifiers), "\n".join(f"1 {word} 2" for _, word in cases)
        )

    def test_copy(self):
        source = self.file(HEADER + NET.replace("n1", "n[1]"))
        out = os.path.join(self.folder.name, "out.spef")
        spef.copy_escaped(source, self.file("module m; wire \\n[1] ; endmodule\n", "m.v"), out)
        self.assertEqual(common.read_text(out), HEADER + NET.replace("n1", "n\\[1\\]"))
        self.assertEqual(list(spef.read(out).nets), ["n[1]"])


if __name__ == "__main__":
    unittest.main()
