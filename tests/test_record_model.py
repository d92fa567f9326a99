"""The walk over all orders of the calls of loads that share a record (`record_model.py`): the program's sequence does what
is asked of it, and each other sequence is found out."""
import unittest

import record_model
from record_model import SEQUENCES, is_as_wanted, small_cases, three_cases, walk_all


class Model(unittest.TestCase):
    """Two loads, one of which may die; three."""

    def test_two_loads(self):
        found, states = walk_all(SEQUENCES["right"][0], small_cases())
        self.assertEqual(found, {})
        self.assertGreater(states, 10000)

    def test_three_loads(self):
        found, states = walk_all(SEQUENCES["right"][0], three_cases())
        self.assertEqual(found, {})
        self.assertGreater(states, 10000)

    def test_every_other_sequence_is_found_out(self):
        cases = list(small_cases())
        for name, (sequence, wanted) in SEQUENCES.items():
            if name != "right":
                with self.subTest(name):
                    found, _ = walk_all(sequence, cases)
                    self.assertTrue(wanted)
                    self.assertTrue(is_as_wanted(found, wanted), f"{sorted(found)}, and not {wanted}")

    def test_a_finding_is_told_by_its_steps(self):
        """Without a lock the shortest way to two loads at once: each opens FILE, or finds none, before the other ends."""
        case = record_model.Case("marked", (record_model.PLAIN,) * 2, 0, False)
        self.assertEqual(walk_all(SEQUENCES["no lock"][0], [case])[0], {})
        case = case._replace(begins="absent")
        found, _ = walk_all(SEQUENCES["no lock"][0], [case])
        self.assertEqual(found["two"], (case, ["0: open FILE = None", "1: open FILE = None"]))


if __name__ == "__main__":
    unittest.main()
