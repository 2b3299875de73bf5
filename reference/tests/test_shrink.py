"""The shortening of a list that fails."""

import unittest

from ..generator.shrink import shrink


class Shrinking(unittest.TestCase):
    def test_keeps_what_is_needed(self):
        needed = {3, 500, 501, 998}
        calls = []

        def still_fails(numbers):
            calls.append(len(numbers))
            return needed <= set(numbers)

        self.assertEqual(shrink(range(1000), still_fails), sorted(needed))
        self.assertLess(len(calls), 300)

    def test_order_and_short_lists(self):
        self.assertEqual(shrink([5], lambda numbers: 5 in numbers), [5])
        self.assertEqual(shrink([1, 2], lambda numbers: True), [])
        self.assertEqual(shrink([], lambda numbers: True), [])
        self.assertEqual(shrink([4, 1, 4], lambda numbers: numbers[-2:] == [1, 4]), [1, 4])


if __name__ == "__main__":
    unittest.main()
