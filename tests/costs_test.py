"""Tests of tests/costs, on made processes."""

import unittest

from build_test import load

costs = load("tests/costs")
PROOF = ["/kit/bin/rattle", "check", "--crate-name", "low", "src/lib.rt", "--jobs", "2", ""]


class Costs(unittest.TestCase):
    def test_what_a_process_does(self) -> None:
        self.assertEqual(costs.kind_of(PROOF), ("low", "proof"))
        self.assertEqual(costs.kind_of([*PROOF, "--test"]), ("low", "tests"))
        self.assertEqual(costs.kind_of([*PROOF, "--only", "Table::get"]), ("low", "edits"))
        for words in (["/usr/bin/python3", "-ISc", "..", *PROOF], ["rattle", "expand", "--crate-name", "low"], ["rattle", "check"], [""]):
            self.assertIsNone(costs.kind_of(words))

    def test_seconds(self) -> None:
        fields = ["S", "7", *["0"] * 9, "100", "50", "30", "20", "0"]
        self.assertEqual(costs.seconds_of(f"12 (a (b) c) {' '.join(fields)}"), (7, 200 / costs.TICKS))

    def test_children(self) -> None:
        made, does = costs.Costs(), ("low", "proof")
        process = lambda it, parent, seconds: costs.Process(it, parent, does, seconds)
        rt = costs.Process(1, 0, None, 5.0)
        made.add({1: rt, 2: process(2, 1, 3.0), 3: process(3, 2, 4.0), 4: process(4, 2, 1.0), 5: process(5, 0, 90.0)}, 1)
        # One child has ended, and its parent has its seconds.
        made.add({1: rt, 2: process(2, 1, 7.5), 4: process(4, 2, 2.0)}, 1)
        made.add({1: rt, 9: process(9, 1, 1.0), 8: costs.Process(8, 1, ("low", "tests"), 2.0)}, 1)
        self.assertEqual(made.total(), {does: 10.5, ("low", "tests"): 2.0})

    def test_the_table(self) -> None:
        old = "crate\tproof\tedits\ttests\nlow\t9\t8\t\ngone\t1\t\t\nhigh\t3\t\t4\n"
        sums = {("low", "proof"): 10.4, ("new", "tests"): 2.0}
        self.assertEqual(
            costs.table(old, sums, ["low", "new", "high", "none"]),
            "crate\tproof\tedits\ttests\nlow\t10\t8\t\nnew\t\t\t2\nhigh\t3\t\t4\n",
        )


if __name__ == "__main__":
    unittest.main()
