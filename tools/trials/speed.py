"""Tries what is made of measured figures."""
import unittest

from pages.speed import Cell, Ratio, averaged, coarse, mean, mean_of_all, over, parsed, record, shown

RECORD = """source\tMedians.
time\tnumbers\twalk\t2\t5.00\t0.5000\t2.0000~
time\tnumbers\twalk\t4\t8.00\t2.0000~\t1.0000
time\ttwo maps\teq_with\t2\t8.00\t1.0000\t1.0000
size\tMap<u64, u64, N>\t2\t80\t40
"""


class Figures(unittest.TestCase):
    def setUp(self):
        self.source, self.times, self.sizes = parsed(RECORD)
        self.walk = self.times["numbers", "walk"]

    def test_a_record_is_read_and_written(self):
        self.assertEqual(self.walk[2], Cell(5.0, [Ratio(0.5, ""), Ratio(2.0, "~")]))
        self.assertEqual(record(self.source, self.times, self.sizes), RECORD)

    def test_a_mean_has_the_mark_of_any_figure(self):
        self.assertEqual(shown(mean([Ratio(0.5, ""), Ratio(2.0, "~")])), "1.00~")
        self.assertEqual(mean_of_all(self.times, lambda cells: over(cells, 0, 1)), "0.79~")
        self.assertEqual(mean_of_all({"eq": self.times["two maps", "eq_with"]}, lambda cells: over(cells, 0, 1)), "1.00")

    def test_runs_are_averaged(self):
        other = {("numbers", "walk"): {2: Cell(20.0, [Ratio(2.0, "~"), Ratio(2.0, "")])}}
        found = averaged([other, self.times])["numbers", "walk"][2]
        self.assertEqual((f"{found.nanoseconds:.1f}", *map(shown, found.ratios)), ("10.0", "1.00~", "2.00~"))

    def test_a_coarse_ratio_has_about_two_digits(self):
        self.assertEqual([coarse(Ratio(it, "")) for it in (0.444, 4.44, 44.4)], ["0.44", "4.4", "44"])
