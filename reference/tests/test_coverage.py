"""What a run has reached, counted."""

import unittest

from ..generator import filters, list_versions, uses, waits
from ..generator.coverage import Coverage, not_reached
from ..rules.events import Overflow, Reply


class Covering(unittest.TestCase):
    def test_nothing_reached(self):
        answers, stages, situations = not_reached(Coverage())
        self.assertEqual(answers, list(range(17)))
        self.assertEqual(stages, ["asked", "pairing", "confirming", "proved", "paired"])
        self.assertEqual(situations, [*uses.NAMES, *filters.NAMES, *list_versions.NAMES, *waits.NAMES])

    def test_counts(self):
        coverage = Coverage()
        coverage.note(None, Overflow(), None, Reply(0))
        self.assertEqual(coverage.pairs["Overflow", 0], 1)
        self.assertEqual(not_reached(coverage)[0], list(range(1, 17)))


if __name__ == "__main__":
    unittest.main()
