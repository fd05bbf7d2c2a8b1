#!/usr/bin/env python3
"""Tests of the sums by stretches against those kWh by kWh. Run: python3 reference/test_stretches.py"""
import os
import random
import sys
import unittest

sys.dont_write_bytecode = True
sys.path.insert(0, os.path.dirname(os.path.abspath(__file__)))

import cases
import file_cases
import full_hours
import hour
from hour import (KWH_BY_KWH, MOST_KWH, MOST_PRICE, AddBuyer, AddCompetitive, AddPlant, Commit, Header, Modified,
                  PriceRow, Raised, ReadCompetitive, SteppedCost, SteppedOffer, Tariff)
from hour_file import MOST_BYTES, list_file, write_file
from stretches import BY_STRETCHES, stretches
from test_hour import some_hour

# Prices with many equal ones among them, and some that are read down.
PRICES = (0, 1, 4, 4, 5, 5, 5, 6, 83, MOST_PRICE, MOST_PRICE + 1, 3 * MOST_PRICE)


def some_steps(pick, widest):
    return [(pick.randint(0, widest), pick.choice(PRICES)) for _ in range(pick.randint(1, 10))]


def some_offer(pick, widest):
    if pick.random() < 0.2:
        return Tariff(pick.choice(PRICES))
    steps = some_steps(pick, widest)
    return SteppedOffer(steps, pick.choice((None, None, 0, len(steps) - 1, len(steps) + 1, 12)))


def some_curve(pick, widest):
    """A curve of any kind, modified and raised ones over one another among them."""
    match pick.randrange(4):
        case 0:
            return some_offer(pick, widest)
        case 1:
            return SteppedCost(some_steps(pick, widest))
        case 2:
            return Modified(pick.randint(0, 4 * widest), some_curve(pick, widest))
        case _:
            return Raised(pick.choice((0, 5, 6, 90, MOST_PRICE, 2 * MOST_PRICE)), some_curve(pick, widest))


class Costs(unittest.TestCase):
    def same(self, curve, first, last):
        self.assertEqual(BY_STRETCHES.priced(curve, first, last), KWH_BY_KWH.priced(curve, first, last),
                         (curve, first, last))

    def test_small_curves(self):
        for seed in range(1_500):
            pick = random.Random(seed)
            curve = some_curve(pick, pick.choice((2, 5, 20)))
            first = pick.randint(1, 25)
            for last in range(first - 3, first + 30):
                self.same(curve, first, last)

    def test_up_to_the_last_kwh(self):
        near = MOST_KWH - 12
        for seed in range(500):
            pick = random.Random(seed)
            curve = SteppedCost([(near, pick.choice(PRICES))] + some_steps(pick, 6))
            for over in (curve, Modified(pick.randint(near, MOST_KWH + 2), curve), Raised(5, curve)):
                for last in (MOST_KWH - 1, MOST_KWH, MOST_KWH + 1, 2 * MOST_KWH):
                    self.same(over, pick.randint(near - 3, MOST_KWH + 2), last)

    def test_widths_past_the_last_kwh(self):
        for width in (MOST_KWH - 1, MOST_KWH, MOST_KWH + 1, 2**32 - 1):
            self.same(SteppedCost([(3, 9), (width, 5), (width, 7)]), MOST_KWH - 5, MOST_KWH + 5)

    def test_all_kwh(self):
        offer = SteppedOffer([(1, 3), (700_000, 4), (700_000, 4), (1_000_000, 9)])
        self.same(Raised(8, Modified(700_001, offer)), 1, MOST_KWH)
        self.assertEqual(BY_STRETCHES.priced(offer, 1, MOST_KWH).cost, 3 + 4 * 1_400_000 + 9 * 599_999)

    def test_stretches(self):
        self.assertEqual(stretches(Modified(3, SteppedOffer([(2, 5), (4, 6)])), 1, 8), [(2, 0), (1, 0), (5, 6)])
        self.assertEqual(stretches(Tariff(7), 5, 4), [])
        self.assertEqual(stretches(Tariff(7), 5, 5), [(1, 7)])


class Splits(unittest.TestCase):
    def same(self, share, limits, offers):
        self.assertEqual(BY_STRETCHES.split(share, limits, offers), KWH_BY_KWH.split(share, limits, offers),
                         (share, limits, offers))

    def test_small_groups(self):
        for seed in range(2_000):
            pick = random.Random(seed)
            units = pick.sample(range(1, 129), pick.randint(0, 6))
            limits = {unit: pick.choice((0, pick.randint(1, 40))) for unit in units}
            offers = {unit: some_offer(pick, pick.choice((2, 9, 30))) for unit in units}
            capacity = sum(limits.values())
            for share in (0, 1, pick.randint(0, capacity), pick.randint(0, capacity), capacity, capacity + 1):
                self.same(share, limits, offers)

    def test_equal_prices_of_all_units(self):
        limits = {unit: 10 for unit in range(1, 6)}
        for share in range(52):
            self.same(share, limits, {unit: Tariff(4) for unit in limits})
            self.same(share, limits, {unit: SteppedOffer([(unit, 4), (unit, 4), (2, 5)]) for unit in limits})

    def test_full_energies(self):
        offers = {1: SteppedOffer([(500_000, 300), (500_000, 500)]), 2: Tariff(400)}
        limits = {1: MOST_KWH, 2: MOST_KWH}
        found = BY_STRETCHES.split(3_000_000, limits, offers)
        self.assertEqual((found.amounts, found.dearest, found.uncovered), ({1: 1_000_000, 2: 2_000_000}, 500, 0))
        found = BY_STRETCHES.split(20_000_000, limits, offers)
        self.assertEqual((found.amounts, found.dearest, found.uncovered), ({1: MOST_KWH, 2: MOST_KWH}, 500, 16_000_000))
        self.same(600_001, limits, offers)


class Payments(unittest.TestCase):
    ROW = PriceRow(SteppedOffer([(1_000_000, 300), (1_000_000, 500)]), SteppedCost([(1_000_000, 350)]))

    def test_full_energies(self):
        reading = ReadCompetitive(1, net=2_000_000, accepted=1_200_000, limited=200_000)
        for amount, parts in ((500_000, (150_000_000, 70_000_000, 240_000_000)), (1_500_000, (0, 0, 210_000_000)),
                              (2_000_000, (0, 0, 0))):
            found = hour.competitive_parts(reading, 2_000_000, amount, 0, 0, 1_000, self.ROW, BY_STRETCHES)
            self.assertEqual(found.costs, parts)
        found = hour.competitive_parts(reading, 2_000_000, 1_500_000, 0, 0, 400, self.ROW, BY_STRETCHES)
        self.assertEqual(found.costs, (0, 0, 200_000_000))
        self.assertEqual(hour.guaranteed_parts(2_000_000, 1, 10, self.ROW.offer, BY_STRETCHES).payment, 820_000_000)

    def test_small_parts(self):
        for seed in range(2_000):
            pick = random.Random(seed)
            row = PriceRow(some_offer(pick, 20), SteppedCost(some_steps(pick, 20)))
            reading = ReadCompetitive(1, 0, accepted=pick.randint(0, 80), lost=pick.choice((0, 9)),
                                      limited=pick.choice((0, 0, pick.randint(0, 80))), executed=pick.randint(0, 120),
                                      alpha=pick.randint(0, 1))
            given = (reading, pick.randint(0, 120), pick.choice((0, pick.randint(0, 120))), pick.choice((0, 400)),
                     pick.choice((0, 2_000)), pick.choice((0, 5, 90, MOST_PRICE)), row)
            self.assertEqual(hour.competitive_parts(*given, BY_STRETCHES), hour.competitive_parts(*given), given)

    def test_com_over_the_last_kwh(self):
        row = PriceRow(SteppedOffer([(1_999_999, 1), (1, 2)]), Tariff(9))
        reading = ReadCompetitive(1, accepted=2_000_000, lost=2_000_000)
        found = hour.competitive_parts(reading, 2_000_000, 3, 0, 0, 1_000, row, BY_STRETCHES)
        self.assertEqual(found.costs, (1_999_998, 0, 0))


class Hours(unittest.TestCase):
    def same(self, case):
        self.assertEqual(hour.settle_hour(**case, sums=BY_STRETCHES), hour.settle_hour(**case, sums=KWH_BY_KWH))

    def test_small_hours(self):
        for seed in range(1_000):
            self.same(some_hour(seed))

    def test_drawn_hours(self):
        for number in range(1, cases.HOURS + 1):
            if number % 13:
                self.same(cases.drawn_hour(number))

    def test_lists_of_calls(self):
        for number in range(1, cases.MIXED_HOURS + 1):
            header, (calls, _) = cases.drawn_hour(number)["header"], cases.mixed_calls(number)
            self.assertEqual(hour.make_calls(header, calls, BY_STRETCHES), hour.make_calls(header, calls, KWH_BY_KWH))

    def test_allocated_over_billed(self):
        """The unit has 900,000 kWh allocated and is billed 3; no kWh of it is paid, and support is at the ceiling."""
        entries = [AddPlant(0), AddBuyer(0), AddCompetitive(1, 900_000, 0), Commit(1, 1, 1_000_000)]
        offer = SteppedOffer([(2_000_000, 5)])
        case = dict(header=Header(70, 0, 0, 0, 0), entries=entries, offers1=[offer], offers2=[],
                    readings=[ReadCompetitive(1, net=3)], rows1=[PriceRow(offer, Tariff(6))], rows2=[])
        _, figures = hour.settle_hour(**case, sums=BY_STRETCHES)
        self.assertEqual(hour.listing(figures), "U C 1 900000 3 0\nP 1 1000000 900000 100000 1000000 70 70000000\n"
                         "B 1 0 -1000000\nH 3 1000000 3\n")
        self.same(case)


class Files(unittest.TestCase):
    def same(self, data):
        self.assertEqual(list_file(data, BY_STRETCHES), list_file(data, KWH_BY_KWH), data)

    def test_lawful_and_damaged_hours(self):
        draw = file_cases.Random(7)
        for _ in range(300):
            self.same(write_file(file_cases.lawful_hour(draw)))
            self.same(file_cases.damaged(draw, file_cases.lawful_hour(draw)))

    def test_large_hours(self):
        draw = file_cases.Random(8)
        self.same(write_file(file_cases.largest_hour(draw)))
        self.same(write_file(file_cases.large_energies(draw)))


class FullHours(unittest.TestCase):
    def test_drawn_hours_are_lawful(self):
        for seed in range(8):
            data = write_file(full_hours.full_hour(file_cases.Random(seed)))
            self.assertLessEqual(len(data), MOST_BYTES)
            self.assertEqual(list_file(data, BY_STRETCHES).splitlines()[-1][0], "H", seed)


if __name__ == "__main__":
    unittest.main()
