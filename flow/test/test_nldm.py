"""Tests of flow/nldm.py: interpolation. What it reads of a library is tested in test_linear_library.py."""
import os
import random
import sys
import unittest
from fractions import Fraction

HERE = os.path.dirname(os.path.abspath(__file__))
sys.path.insert(0, os.path.dirname(HERE))
import liberty
import nldm


class Tables(unittest.TestCase):
    def test_interpolation(self):
        """Against the formula of two dimensions, for both orders of a template."""
        pick = random.Random(3)
        for _ in range(40):
            loads, slews = (sorted(pick.sample(range(1, 100), pick.randint(2, 6))) for _ in range(2))
            values = {(load, slew): pick.randint(-50, 500) for load in loads for slew in slews}
            by_load = [" ".join(str(values[load, slew]) for slew in slews) for load in loads]
            by_slew = [" ".join(str(values[load, slew]) for load in loads) for slew in slews]
            load, slew = Fraction(pick.randint(0, 1100), 10), Fraction(pick.randint(0, 1100), 10)
            expected = self.formula(loads, slews, values, load, slew)
            self.assertEqual(self.curve_of("load slew", loads, slews, by_load, slew).at(load), expected)
            self.assertEqual(self.curve_of("slew load", slews, loads, by_slew, slew).at(load), expected)

    def curve_of(self, order, first, second, rows, slew):
        names = {"load": "total_output_net_capacitance", "slew": "input_net_transition"}
        variables = [names[word] for word in order.split()]
        text = (
            f"library (x) {{ lu_table_template (t) {{ variable_1 : {variables[0]}; variable_2 : {variables[1]}; }}\n"
            f'd (t) {{ index_1 ("{first}"); index_2 ("{second}");\n values ({", ".join(map(repr, rows))}); }} }}'
        )
        library = liberty.parse(text.replace("[", "").replace("]", "").replace("'", '"'), "f")
        templates = {"t": library.groups[0]}
        one = Fraction(1)
        source = nldm.Source(library, "f", one, one, templates, nldm.Slews(slew))
        return nldm.curve_of(source, library.groups[1], slew, "c")

    def formula(self, loads, slews, values, load, slew):
        low = max(k for k in range(len(loads) - 1) if k == 0 or loads[k] <= load)
        left = max(k for k in range(len(slews) - 1) if k == 0 or slews[k] <= slew)
        c, d, s, t = loads[low], loads[low + 1], slews[left], slews[left + 1]
        parts = (
            values[c, s] * (d - load) * (t - slew) + values[d, s] * (load - c) * (t - slew)
            + values[c, t] * (d - load) * (slew - s) + values[d, t] * (load - c) * (slew - s)
        )
        return Fraction(parts, (d - c) * (t - s))


if __name__ == "__main__":
    unittest.main()
