"""Tests of flow/eco.py and flow/netlist.py."""
import contextlib
import io
import os
import sys
import tempfile
import unittest

HERE = os.path.dirname(os.path.abspath(__file__))
sys.path.insert(0, os.path.dirname(HERE))
import common
import eco
import netlist

BEFORE, AFTER, SPEF = (os.path.join(HERE, name) for name in ("eco_before.v", "eco_after.v", "eco_after.spef"))
HEAD = "module m (a, z);\n input a;\n output z;\n"
ONE = HEAD + " B u (.A(a), .Y(z));\nendmodule\n"


def module(text, file="a.v"):
    return netlist.Parser(text, file).module()


def netted(text):
    """What the pins of the instance `u` are on."""
    return module(f"module m;\n B u ({text});\nendmodule").instances["u"].pins


class Reading(unittest.TestCase):
    def test_names(self):
        read = netlist.read(BEFORE)
        self.assertEqual(list(read.instances), ["core/u[1]", "u.2", "u3", "u4", "u5"])
        self.assertEqual(read.instances["core/u[1]"].line, 13)
        self.assertEqual(read.instances["u.2"].pins, {"A": ("core/n[3]", None), "Y": ("w/q", 2)})
        self.assertEqual(str(read.instances["u.2"].pins["Y"]), "w/q[2]")
        self.assertEqual(read.instances["u4"].pins, {"A": ("w/q", 2), "B": "1'b1", "Y": None})

    def test_connections(self):
        self.assertEqual(netted(".A(n), .B(\\n ), .C(n [ 03 ])"), {"A": ("n", None), "B": ("n", None), "C": ("n", 3)})
        self.assertEqual(netted(".A(n[3:3]), .B({n, \\m/1 })"), {"A": "n [ 3 : 3 ]", "B": "{ n , m/1 }"})
        self.assertEqual(netted(""), {})

    def test_items(self):
        read = module("module m;\n wire n, \\wire ;\n B u (.A(n)), \\wire (.A(n));\nendmodule // the end\n")
        self.assertEqual(read.items[1], (("wire", "n", ",", "wire"), 2))
        self.assertEqual(list(read.instances), ["u", "wire"])


class ReadingFaults(unittest.TestCase):
    def check(self, text, line, reason):
        with self.assertRaises(common.Fault) as caught:
            module(text)
        self.assertEqual(str(caught.exception), f"a.v:{line}: {reason}")

    def test_forms(self):
        self.check("", 1, "the text ends too early")
        self.check(HEAD + " B u (a, z);\nendmodule", 4, "a connection without the name of its pin")
        self.check(HEAD + " B #(1) u (.A(a));\nendmodule", 4, "'#' is not expected here")
        self.check(HEAD + " parameter p = 1;\nendmodule", 4, "'parameter' is not expected here")
        self.check(HEAD + " B u (.A(a)\n.Y(z));\nendmodule", 5, "'.' is not expected here")
        self.check(HEAD + " B u (.A(a), .A(z));\nendmodule", 4, "a second pin 'A'")
        self.check(HEAD + " B u (.A(a));\n B u (.A(a));\nendmodule", 5, "a second instance 'u'")
        self.check(HEAD + " B u (.A(a + z));\nendmodule", 4, "'+' begins no token")
        self.check(HEAD + " B u (.A((a)));\nendmodule", 4, "'(' is not expected here")
        self.check(HEAD + " // c\n /* d */ %\nendmodule", 5, "'%' begins no token")
        self.check(HEAD + " /* no end\n\n", 4, "'/' begins no token")
        self.check(HEAD + " B u (); `define x\nendmodule", 4, "a directive is not alone on its line")
        self.check(HEAD + " B u (.A(a))\n\n", 4, "the text ends too early")
        self.check(HEAD + " wire n\n module", 5, "'module' is not expected here")
        self.check(ONE + "module n;\nendmodule", 6, "there is text after the module")


class Scripts(unittest.TestCase):
    maxDiff = None

    def check(self, tool, *words):
        with tempfile.TemporaryDirectory() as folder:
            out = os.path.join(folder, "out.tcl")
            eco.main(["--before", BEFORE, "--after", AFTER, "--format", tool, *words, "-o", out])
            text = common.read_text(out).replace(HERE + os.sep, "")
        self.assertEqual(text, common.read_text(os.path.join(HERE, f"eco_{tool}.tcl")))

    def test_opensta(self):
        self.check("opensta")

    def test_openroad(self):
        self.check("openroad", "--spef", SPEF)

    def test_innovus(self):
        self.check("innovus", "--spef", SPEF)

    def test_no_change(self):
        script = eco.script(eco.change_of(module(ONE), module(ONE), "vgi_"), "innovus", "a.v", "b.v")
        self.assertIn("# 0 new cells, 0 new nets, 0 pins moved.\n", script)

    def test_words(self):
        words = {"a/b": "a/b", "a[3]": "{a[3]}", "a$b": "{a$b}", "a\\": "a\\\\", "a{b": "a\\{b", "": "{}"}
        for text, word in words.items():
            self.assertEqual(eco.word(text), word)

    def test_names_that_opensta_cannot_look_up(self):
        text = ONE.replace("u (", "\\u*1 (")
        after = text.replace(".Y(z)", ".Y(vgi_n0)").replace("endmodule", " B vgi_u0 (.A(vgi_n0), .Y(z));\nendmodule")
        after = after.replace(";\n input", ";\nwire vgi_n0;\n input")
        change = eco.change_of(module(text), module(after, "b.v"), "vgi_")
        self.assertIn("detachTerm {u*1} Y z\n", eco.script(change, "innovus", "a.v", "b.v"))
        with self.assertRaises(common.Fault) as caught:
            eco.script(change, "openroad", "a.v", "b.v")
        self.assertEqual(str(caught.exception), "b.v:5: OpenSTA cannot look up the name 'u*1'")

    def test_words_of_the_command(self):
        files = ["--before", BEFORE, "--after", AFTER, "--format"]
        for words in [["opensta", "--spef", SPEF], ["tcl"], ["innovus", "--prefix", "1a"]]:
            with self.assertRaises(SystemExit), contextlib.redirect_stderr(io.StringIO()):
                eco.main(files + words)


class ChangeFaults(unittest.TestCase):
    def check(self, after, fault, before=ONE):
        with self.assertRaises(common.Fault) as caught:
            eco.change_of(module(before), module(after, "b.v"), "vgi_")
        self.assertEqual(str(caught.exception), fault)

    def test_instances(self):
        self.check(ONE.replace("B u", "C u"), "b.v:4: the instance 'u' was a B")
        self.check(HEAD + "endmodule\n", "a.v:4: the instance 'u' is not in b.v")
        new = ONE.replace("endmodule", "B new ();\nendmodule")
        self.check(new, "b.v:5: the new instance 'new' does not begin with 'vgi_'")
        new = ONE.replace("endmodule", "B vgi_u0 (.A({a, z}));\nendmodule")
        self.check(new, "b.v:5: the pin 'A' of the new instance is not on one net")

    def test_pins(self):
        self.check(ONE.replace(".A(a), ", ""), "b.v:4: the instance 'u' has other pins than before")
        self.check(ONE.replace(".A(a)", ".A()"), "b.v:4: the pin 'A' of 'u' is not moved from one net to one net")
        no_wire = ONE.replace(".A(a)", ".A(vgi_n0)")
        self.check(no_wire, "b.v:4: the net 'vgi_n0' is neither new nor that of a pin in a.v")

    def test_items(self):
        other = ONE.replace("module m", "module k")
        self.check(other, "b.v:1: 'module k ( a , z )' is in the place of 'module m ( a , z )'")
        self.check(ONE.replace(" input a", "wire n;\n input a"), "b.v:2: 'wire n' is in the place of 'input a'")
        assigned = ONE.replace("endmodule", " assign z = a;\nendmodule")
        self.check(assigned, "b.v:5: 'assign z = a' is not in the other netlist")
        self.check(ONE.replace(" output z;\n", ""), "a.v:3: 'output z' is not in the other netlist")


if __name__ == "__main__":
    unittest.main()
