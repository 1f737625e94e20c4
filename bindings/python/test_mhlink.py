"""Tests of the module mhlink. Expected values are worked out by hand."""
import unittest

import mhlink
from mhlink import Link, Machine, MhlinkError, OldHits, Thrown

GUARD = ["guard", ["insert", ["op", "ieq"], 1, [1]], ["drop", ["const", "int", 100], 0, ["int"]], ["insert", ["op", "iadd"], 1, [1]]]
DEFINITION = {
    "version": 2,
    "points": [{"name": "a", "cost": 5}],
    "sites": [
        {"name": "f", "type": "(int)int", "key": 0, "target": ["point", "a", GUARD, ["op", "ineg"]],
         "links": [{"when": 1, "weight": 3, "needs": ["a"]}]},
        {"name": "quotient", "type": "(int,int)int", "target": ["op", "idiv"], "links": []},
        {"name": "twice", "type": "(String)String", "target": ["permute", ["op", "concat"], "(String)String", [0, 0]], "links": []},
        {"name": "negation", "type": "(boolean)boolean", "target": ["op", "not"], "links": []},
        {"name": "longs", "type": "(long,long)long", "target": ["op", "ladd"], "links": []},
    ],
}


class Calls(unittest.TestCase):
    def setUp(self):
        self.machine = Machine(DEFINITION)
        self.addCleanup(self.machine.close)

    def call(self, name, *arguments):
        return self.machine.call(self.machine.site(name), *arguments).value

    def test_each_kind_crosses_the_boundary(self):
        self.assertEqual([self.call("f", 1), self.call("f", 2)], [100, 3])
        self.assertEqual(self.call("longs", 2**62, 2**62 - 1), 2**63 - 1)
        self.assertIs(self.call("negation", True), False)
        self.assertEqual([self.call("twice", "ab"), self.call("twice", "")], ["abab", ""])
        self.assertIs(self.call("quotient", 7, 0), Thrown.ARITHMETIC_EXCEPTION)

    def test_a_point_falls(self):
        self.machine.invalidate([self.machine.point("a")])
        self.assertEqual(self.call("f", 2), -2)

    def test_a_plan_is_installed_and_a_history_renewed(self):
        machine, f = self.machine, self.machine.site("f")
        link = machine.link(f, 1)
        self.call("f", 1), self.call("f", 1)
        self.assertEqual((machine.hits(link), machine.total(link)), (2, 0))
        machine.flush()
        snapshot = machine.snapshot()
        # two hits of weight 3 gain 6, and the point costs 5
        self.assertEqual(machine.certificate(snapshot)["value"], 1)
        self.assertEqual(machine.install(machine.plan(snapshot)), 1)
        self.assertEqual((machine.linked(f), machine.total(link)), (1, 2))
        machine.renew(hits=OldHits.DROP)
        self.assertEqual((machine.linked(f), machine.total(link), machine.used().plans), (0, 0, 0))

    def test_a_site_gets_another_tree(self):
        f = self.machine.site("f")
        self.machine.target(f, ["op", "ineg"])
        self.assertEqual((self.call("f", 1), self.machine.tree(f)), (-1, ["op", "ineg"]))

    def test_sites_are_added(self):
        self.machine.extend({"points": [], "sites": [{"name": "h", "type": "()int", "target": ["const", "int", 4], "links": []}]})
        self.assertEqual(self.call("h"), 4)


class Errors(unittest.TestCase):
    def test_a_status_is_an_exception(self):
        with Machine(DEFINITION) as machine, self.assertRaises(MhlinkError) as told:
            machine.site("g")
        self.assertEqual(told.exception.status, 301)
        with self.assertRaises(MhlinkError) as told:
            Machine("{")
        self.assertEqual(str(told.exception), "fault 3 NotJson (status 103)")

    def test_wrong_arguments_are_told_before_the_call(self):
        with Machine(DEFINITION) as machine:
            f = machine.site("f")
            for arguments in ((), (1, 2), ("1",), (True,)):
                self.assertRaises(TypeError, machine.call, f, *arguments)
            self.assertRaises(OverflowError, machine.call, f, 2**63)
            self.assertRaises(MhlinkError, machine.call, f, 2**31)

    def test_a_closed_machine_is_told(self):
        machine = Machine(DEFINITION)
        machine.close()
        machine.close()
        self.assertRaises(ValueError, machine.site, "f")

    def test_a_text_is_explained(self):
        self.assertEqual(mhlink.explain(mhlink.Form.DEFINITION, DEFINITION), "")
        self.assertIn("version", mhlink.explain(mhlink.Form.DEFINITION, {"points": [], "sites": []}))


class Plans(unittest.TestCase):
    def test_shared_costs_are_paid_once(self):
        links = [Link(1500, [0]), Link(1600, [0, 1]), Link(500, [2])]
        self.assertEqual(mhlink.plan([2500, 400, 900], links), ([0, 1], 200))
        self.assertEqual(mhlink.plan([], []), ([], 0))


if __name__ == "__main__":
    unittest.main()
