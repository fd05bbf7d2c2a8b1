#!/usr/bin/env python3
"""Tests of the second calculation by the worked examples of docs/. Run: python3 reference/test_hour.py"""
import os
import random
import sys
import unittest
from dataclasses import fields, replace

sys.dont_write_bytecode = True
sys.path.insert(0, os.path.dirname(os.path.abspath(__file__)))

import hour
import told_apart
from hour import (DONE, KWH_BY_KWH, OUT_OF_TURN, Accepted, AddBuyer, AddCompetitive, AddGuaranteed, AddPlant, Close,
                  Commit, Correct, Header, PriceRow, PutAside, ReadBuyer, ReadCompetitive, ReadGuaranteed, Refused,
                  Settle, SteppedCost, SteppedOffer, TakeBack, Tariff, make_calls, settle_hour)

HEADER = Header(1_000, 10_000, 200, 0, 0)
OFFER = SteppedOffer([(100, 300), (100, 500)])
COST = SteppedCost([(100, 350)])


class WorkedExamples(unittest.TestCase):
    def test_worked_hour(self):
        answers, figures = settle_hour(**hour.worked_hour())
        self.assertEqual(answers, [Accepted(1)] * 6)
        self.assertEqual(hour.listing(figures),
                         "U C 1 40 130 28000\nP 1 50 40 10 20 350 9000\nB 1 130 80\nH 130 50 0\n")
        self.assertEqual(figures.missing, [])

    def test_limits(self):
        self.assertEqual(hour.limit_of(100_000, 500, 200), 93_100)
        self.assertEqual(hour.limit_of(1, 0, 1), 0)

    def test_group_shares(self):
        self.assertEqual(hour.group_shares(100, 200, 100), (66, 34))
        self.assertEqual(hour.group_shares(100, 0, 0), (100, 0))
        self.assertEqual(hour.group_shares(100, 0, 5), (0, 100))

    def test_split(self):
        offers = {1: SteppedOffer([(50, 300), (1, 500)]), 2: SteppedOffer([(80, 400), (1, 500)])}
        limits = {1: 100, 2: 100}
        found = hour.split(150, limits, offers)
        taken = {1: ((50, 300), (20, 500)), 2: ((80, 400),)}
        self.assertEqual(found, hour.Split({1: 70, 2: 80}, taken, 500, 0))
        costs = [KWH_BY_KWH.priced(offers[unit], 1, amount).cost for unit, amount in found.amounts.items()]
        self.assertEqual(sum(costs), 57_000)
        taken = {1: ((50, 300), (50, 500)), 2: ((80, 400), (20, 500))}
        self.assertEqual(hour.split(200, limits, offers), hour.Split({1: 100, 2: 100}, taken, 500, 0))
        self.assertEqual(hour.split(201, limits, offers), hour.Split({1: 100, 2: 100}, taken, 500, 1))
        self.assertEqual(hour.split(0, limits, offers), hour.Split({1: 0, 2: 0}, {1: (), 2: ()}, None, 0))

    def test_split_of_equal_tariffs(self):
        self.assertEqual(hour.split(6, {1: 5, 2: 7}, {1: Tariff(9), 2: Tariff(9)}),
                         hour.Split({1: 5, 2: 1}, {1: ((5, 9),), 2: ((1, 9),)}, 9, 0))

    def test_payments(self):
        reading = ReadCompetitive(1, net=130, accepted=110, limited=20, p_act=30)
        row = PriceRow(OFFER, COST)
        self.assertEqual(hour.competitive_parts(reading, 130, 40, 0, 0, 1_000, row).costs, (15_000, 7_000, 6_000))
        self.assertEqual(hour.competitive_parts(reading, 130, 90, 0, 0, 1_000, row).costs, (0, 7_000, 8_400))

    def test_maintenance_mark(self):
        self.assertEqual([hour.maintenance_mark(day, minute) for day, minute in
                          ((0, 781), (1, 0), (2, 780), (2, 781), (3, 1_439))], [0, 1, 0, 1, 0])

    def test_day_support(self):
        self.assertEqual(hour.day_support(150, hour.carried(100, 200)), 52)
        self.assertEqual(hour.day_support(10, hour.carried(100, 200)), 0)

    def test_buyers(self):
        self.assertEqual(hour.buyer_shares(100, [1, 1, 1]),
                         hour.BuyerShares([0, 1, 2, 3], [0, 33, 66, 100], [33, 33, 34], 0))
        self.assertEqual(hour.buyer_shares(100, [0, 0]), hour.BuyerShares([0, 0, 0], [0, 0, 0], [0, 0], 100))
        _, figures = settle_hour(
            HEADER, [AddPlant(0), AddCompetitive(1, 100, 0), AddBuyer(0), AddBuyer(0), AddBuyer(0), Commit(1, 3, 40)],
            [OFFER], [], [ReadCompetitive(1, net=100)] + [ReadBuyer(buyer, 1) for buyer in (1, 2, 3)], [], [])
        self.assertEqual([of.net for of in figures.buyers.values()], [33, 33, -6])


class Rates(unittest.TestCase):
    def rate(self, payments, over_allocated, money, over_sold):
        return hour.support_rate(hour.quotient(payments, over_allocated), hour.quotient(money, over_sold), 55)

    def test_quotients_left_out(self):
        self.assertEqual(self.rate(700, 2, 0, 0), 350)
        self.assertEqual(self.rate(700, 0, 900, 2), 450)
        self.assertEqual(self.rate(700, -1, 900, 0), 55)
        self.assertEqual(self.rate(0, 0, -900, 2), 0)
        self.assertEqual(self.rate(10 ** 13, 1, 0, 1), 10 ** 9)

    def test_cost_weight_and_active_energy(self):
        self.assertEqual(hour.support_cost(10, 5, 7, 10_000, 200, 2_000), hour.SupportCost(15 * 7, 2_500))
        self.assertEqual(hour.support_cost(10, 5, 7, 10_000, 200, 2_000).total, 15 * 7 + 2_500)
        self.assertEqual(hour.support_cost(1, 0, 0, 1, 8_001, 2_000).total, 1)
        self.assertEqual(hour.weight_of(199, 50), 199)
        self.assertEqual(hour.weight_of(200, 50), 201)
        reading = ReadGuaranteed(1, 9, p_act=100_000, type2=20_000, type3=3_000, type5=500, type6=60, type8=8, day=2)
        self.assertEqual(hour.active_energy(replace(reading, minute=780)).total, 123_568)
        self.assertEqual(hour.active_energy(replace(reading, minute=781)).total, 123_508)


class Curves(unittest.TestCase):
    def test_fields_outside_their_limits(self):
        self.assertEqual([SteppedOffer([(0, 500), (1, 300), (9, 20_000_000)]).price(kwh) for kwh in (0, 1, 2, 3)],
                         [500, 500, 500, 10_000_000])
        self.assertEqual([SteppedCost([(0, 500), (1, 300)]).price(kwh) for kwh in (1, 2, 3)], [500, 300, 300])
        self.assertEqual(SteppedOffer([]).price(2_000_000), 0)
        self.assertEqual(SteppedCost([(1, 7), (1, 8)], count=0).price(5), 7)

    def test_over_other_curves(self):
        self.assertEqual([hour.Modified(2, Tariff(9)).price(kwh) for kwh in (0, 2, 3)], [0, 0, 9])
        self.assertEqual([hour.Raised(100, Tariff(rate)).price(1) for rate in (9, 99)], [10, 100])

    def test_refusals_of_lists(self):
        fine = [(1, 5)]
        for steps, offer, cost in ((fine, None, None), ([], 8, 8), (fine * 10, None, None), (fine * 11, 8, 8),
                                   ([(0, 5)], 8, 8), ([(2_000_000, 5)], None, None), ([(2_000_001, 5)], 8, 8),
                                   ([(1, 5), (1, 4)], 8, None), ([(1, 10_000_000)], None, None),
                                   ([(1, 10_000_001)], 9, 9), ([(1, 20_000_000), (1, 15_000_000)], 8, 9)):
            self.assertEqual((hour.steps_refusal(steps, True), hour.steps_refusal(steps, False)), (offer, cost), steps)
        self.assertEqual(hour.rows_refusal([(1, 10_000_001)], []), 8)
        self.assertEqual(hour.rows_refusal(fine, [(1, 10_000_001)]), 9)
        self.assertIsNone(hour.rows_refusal(fine, fine))
        self.assertEqual([hour.rate_refusal(rate) for rate in (10_000_000, 10_000_001)], [None, 9])


ONE_OF_EACH = [AddPlant(0), AddBuyer(0), AddCompetitive(1, 40, 0), AddGuaranteed(1, 40, 30, 0, 0)]
FULL_COMMITMENTS = ONE_OF_EACH + [Commit(1, 1, 1)] * 768


class Refusals(unittest.TestCase):
    def judged(self, call, before):
        accepted = hour.judge_entries(before)[1]
        self.assertEqual(len(accepted), len(before))
        return hour.judge(call, accepted)

    def both_sides(self, before, good, bad):
        """`good` maps calls to their answers, `bad` calls to their refusals."""
        for call, number in good.items():
            self.assertEqual(self.judged(call, before), Accepted(number), call)
        for call, number in bad.items():
            self.assertEqual(self.judged(call, before), Refused(number), call)

    def test_header(self):
        most = Header(10_000_000, 50_000, 1_000_000, 10_000_000, 10_000_000)
        self.assertIsNone(hour.header_refusal(most))
        for field in fields(Header):
            more = replace(most, **{field.name: getattr(most, field.name) + 1})
            self.assertEqual(hour.header_refusal(more), 9)
            self.assertRaises(ValueError, settle_hour, more, [], [], [], [], [], [])

    def test_rooms(self):
        one = [AddPlant(0)]
        for before, call, room in (([], AddPlant(0), 32), ([], AddBuyer(0), 64), (one, AddCompetitive(1, 1, 0), 128),
                                   (one, AddGuaranteed(1, 1, 1, 0, 0), 128),
                                   (one + [AddBuyer(0)], Commit(1, 1, 1), 768)):
            answers, accepted = hour.judge_entries(before + [call] * (room + 1))
            self.assertEqual(answers[-2:], [Accepted(room), Refused(4)])
            self.assertEqual(len(accepted), len(before) + room)

    def test_entries(self):
        self.both_sides([], {AddPlant(2_000): 1, AddBuyer(2_000): 1},
                        {AddPlant(2_001): 5, AddBuyer(2_001): 5, AddCompetitive(1, 0, 0): 1,
                         AddGuaranteed(1, 0, 0, 0, 0): 1, Correct(1, 1, 0): 2, PutAside(2, 1): 2, Commit(1, 1, 1): 1})
        self.both_sides(
            ONE_OF_EACH,
            {AddCompetitive(1, 0, 2_000): 2, AddCompetitive(1, 2_000_000, 0): 2,
             AddGuaranteed(1, 0, 2_000_000, 2_000, 1): 2, AddGuaranteed(1, 2_000_000, 0, 0, 0): 2,
             Correct(1, 1, 2_000_000): 1, Correct(2, 1, 0): 1, PutAside(1, 1): 1, PutAside(2, 1): 1,
             TakeBack(1, 1): 1, TakeBack(2, 1): 1, Commit(1, 1, 1): 1, Commit(1, 1, 20_000_000): 1},
            {AddCompetitive(0, 0, 0): 1, AddCompetitive(2, 0, 0): 1, AddCompetitive(1, 0, 2_001): 5,
             AddCompetitive(1, 2_000_001, 0): 6, AddCompetitive(1, 0, 0, 8): 8, AddCompetitive(1, 0, 0, 9): 9,
             AddGuaranteed(0, 0, 0, 0, 0): 1, AddGuaranteed(2, 0, 0, 0, 0): 1, AddGuaranteed(1, 0, 0, 2_001, 0): 5,
             AddGuaranteed(1, 2_000_001, 0, 0, 0): 6, AddGuaranteed(1, 0, 2_000_001, 0, 0): 6,
             AddGuaranteed(1, 0, 0, 0, 2): 10, Correct(0, 1, 0): 2, Correct(3, 1, 0): 2, Correct(1, 0, 0): 2,
             Correct(2, 2, 0): 2, Correct(1, 1, 2_000_001): 6, PutAside(3, 1): 2, PutAside(1, 2): 2,
             TakeBack(0, 1): 2, TakeBack(2, 0): 2, Commit(0, 1, 1): 1, Commit(2, 1, 1): 1, Commit(1, 0, 1): 3,
             Commit(1, 2, 1): 3, Commit(1, 1, 0): 6, Commit(1, 1, 20_000_001): 6})

    def test_commitments_of_a_plant(self):
        before = ONE_OF_EACH + [AddPlant(0), Commit(1, 1, 19_999_999)]
        self.both_sides(before, {Commit(1, 1, 1): 2, Commit(2, 1, 20_000_000): 2}, {Commit(1, 1, 2): 7})
        self.both_sides(before + [Commit(1, 1, 1)], {Commit(2, 1, 20_000_000): 3},
                        {Commit(1, 1, 1): 7, Commit(1, 1, 20_000_001): 6})

    def test_readings(self):
        good, bad = {}, {}
        for name in ("net", "accepted", "lost", "executed", "p_act", "type2", "type3", "type5", "type6", "type8"):
            good[ReadCompetitive(1, **{name: 2_000_000})] = 1
            bad[ReadCompetitive(1, **{name: 2_000_001})] = 6
        for name in ("net", "p_act", "type2", "type3", "type5", "type6", "type8"):
            good[ReadGuaranteed(1, **{name: 2_000_000})] = 1
            bad[ReadGuaranteed(1, **{name: 2_000_001})] = 6
        for name in ("opportunity", "planning", "noncooperation"):
            good[ReadCompetitive(1, **{name: 100_000_000})] = 1
            bad[ReadCompetitive(1, **{name: 100_000_001})] = 9
        for kind in (ReadCompetitive, ReadGuaranteed):
            for name, most in (("day", 400), ("minute", 1_439)):
                good[kind(1, **{name: most})] = 1
                bad[kind(1, **{name: most + 1})] = 10
            bad[kind(0)] = bad[kind(2)] = 2
        good |= {ReadCompetitive(1, alpha=1): 1, ReadCompetitive(1, accepted=5, lost=5, limited=10): 1,
                 ReadCompetitive(1, accepted=2_000_000, lost=2_000_000, limited=2_000_000): 1,
                 ReadBuyer(1, 50_000_000): 1}
        bad |= {ReadCompetitive(1, alpha=2): 10, ReadCompetitive(1, accepted=5, lost=5, limited=11): 11,
                ReadCompetitive(1, accepted=2_000_000, lost=2_000_000, limited=2_000_001): 6,
                ReadBuyer(1, 50_000_001): 6, ReadBuyer(0): 3, ReadBuyer(2): 3}
        self.both_sides(ONE_OF_EACH, good, bad)

    def test_where_two_rows_apply(self):
        self.both_sides(FULL_COMMITMENTS, {}, {Commit(2, 2, 0): 1, Commit(1, 2, 0): 3, Commit(1, 1, 0): 4})
        self.both_sides([AddPlant(0)] * 32, {}, {AddPlant(2_001): 4})
        self.both_sides([AddBuyer(0)] * 64, {}, {AddBuyer(2_001): 4})
        self.both_sides([AddPlant(0)] + [AddCompetitive(1, 0, 0)] * 128, {},
                        {AddCompetitive(2, 0, 2_001): 1, AddCompetitive(1, 2_000_001, 2_001, 8): 4})
        self.both_sides([AddPlant(0)] + [AddGuaranteed(1, 0, 0, 0, 0)] * 128, {},
                        {AddGuaranteed(2, 0, 0, 0, 2): 1, AddGuaranteed(1, 0, 0, 2_001, 2): 4})
        self.both_sides(
            ONE_OF_EACH, {},
            {AddCompetitive(1, 2_000_001, 2_001): 5, AddCompetitive(1, 2_000_001, 0, 8): 6,
             AddGuaranteed(1, 0, 2_000_001, 0, 2): 6, Correct(3, 1, 2_000_001): 2, Correct(1, 2, 2_000_001): 2,
             ReadCompetitive(2, net=2_000_001): 2, ReadCompetitive(1, net=2_000_001, planning=100_000_001): 6,
             ReadCompetitive(1, limited=2_000_001): 6, ReadCompetitive(1, opportunity=100_000_001, alpha=2): 9,
             ReadCompetitive(1, minute=1_440, limited=1): 10, ReadGuaranteed(1, p_act=2_000_001, day=401): 6,
             ReadGuaranteed(2, day=401): 2, ReadBuyer(2, 50_000_001): 3})

    def test_rows_stand_in_their_order(self):
        calls = ONE_OF_EACH + [Correct(1, 1, 1), PutAside(1, 1), TakeBack(1, 1), Commit(1, 1, 1), ReadCompetitive(1),
                               ReadGuaranteed(1), ReadBuyer(1)]
        for call in calls:
            numbers = [number for number, _ in hour.rows_of(call, ONE_OF_EACH)]
            self.assertEqual(numbers, sorted(set(numbers)), call)


def closed(entries, offers1=(), offers2=()):
    return hour.close_hour(hour.judge_entries(entries)[1], offers1, offers2)


def amounts(found):
    return {key: found.amount(*key) for key in found.units}


def limits(found):
    return {key: of.limit for key, of in found.units.items()}


class Closing(unittest.TestCase):
    def test_corrections_and_units_aside(self):
        plant = [AddPlant(0), AddBuyer(0), AddCompetitive(1, 40, 0), AddCompetitive(1, 10, 0), Commit(1, 1, 50)]
        rows = [Tariff(5), Tariff(4)]
        self.assertEqual(amounts(closed(plant, rows)), {(1, 1): 40, (1, 2): 10})
        self.assertEqual(amounts(closed(plant + [Correct(1, 1, 45)], rows)), {(1, 1): 40, (1, 2): 10})
        twice = plant + [Correct(1, 2, 45), Correct(1, 2, 30)]
        self.assertEqual(amounts(closed(twice, rows)), {(1, 1): 20, (1, 2): 30})
        aside = plant + [PutAside(1, 2), PutAside(1, 2), Correct(1, 2, 30)]
        self.assertEqual(amounts(closed(aside, rows)), {(1, 1): 40, (1, 2): 0})
        self.assertEqual(closed(aside, rows).plants[1].run, 10)
        self.assertEqual(amounts(closed(aside + [TakeBack(1, 2)], rows)), {(1, 1): 20, (1, 2): 30})
        self.assertEqual(limits(closed(plant, rows[:1])), {(1, 1): 40, (1, 2): 0})
        self.assertEqual(closed(plant, rows[:1]).plants[1].declared, (40, 0))

    def test_guaranteed_limit_is_seasonal(self):
        entries = [AddPlant(0), AddBuyer(0), AddCompetitive(1, 100, 0), AddGuaranteed(1, 100, 20, 0, 0),
                   Commit(1, 1, 90), Correct(2, 1, 200)]
        found = closed(entries, [Tariff(5)], [Tariff(5)])
        self.assertEqual(limits(found), {(1, 1): 100, (2, 1): 20})
        self.assertEqual(found.plants[1].shares, (30, 60))
        self.assertEqual(found.plants[1].run, 40)

    def test_plant_without_units(self):
        entries = [AddPlant(0), AddBuyer(0), Commit(1, 1, 50)]
        _, figures = settle_hour(HEADER, entries, [], [], [ReadBuyer(1, 7)], [], [])
        self.assertEqual(hour.listing(figures), "P 1 50 0 50 50 1000 60000\nB 1 0 -50\nH 0 50 0\n")


class Settling(unittest.TestCase):
    def test_empty_hour(self):
        self.assertEqual(hour.listing(settle_hour(HEADER, [], [], [], [], [], [])[1]), "H 0 0 0\n")

    def test_no_buyer(self):
        _, figures = settle_hour(HEADER, [AddPlant(0), AddCompetitive(1, 40, 0)], [OFFER], [],
                                 [ReadCompetitive(1, net=9)], [], [])
        self.assertEqual(hour.listing(figures), "U C 1 0 9 0\nP 1 0 0 0 0 0 0\nH 9 0 9\n")

    def test_readings_are_replaced_whole(self):
        case = hour.worked_hour()
        case["readings"] += [ReadCompetitive(1, net=20), ReadCompetitive(1, net=2_000_001), ReadBuyer(1, 50_000_001)]
        answers, figures = settle_hour(**case)
        self.assertEqual(answers[-3:], [Accepted(1), Refused(6), Refused(6)])
        self.assertEqual(figures.units[1, 1].bill, 20)
        self.assertEqual(figures.units[1, 1].payment, 0)

    def test_missing_readings(self):
        case = hour.worked_hour()
        case["readings"] = []
        _, figures = settle_hour(**case)
        self.assertEqual(figures.missing, [(ReadCompetitive, 1), (ReadBuyer, 1)])
        self.assertEqual(hour.listing(figures), "U C 1 40 0 0\nP 1 50 40 10 50 1000 52000\nB 1 0 -50\nH 0 50 0\n")

    def test_unit_aside_is_paid_and_counts(self):
        case = hour.worked_hour()
        case["entries"].append(PutAside(1, 1))
        _, figures = settle_hour(**case)
        # Co 0: A is 90 × 300, B 7,000 and C 20 × 300.
        self.assertEqual(hour.listing(figures), "U C 1 0 130 40000\nP 1 50 0 50 50 500 35000\nB 1 130 80\nH 130 50 0\n")

    def test_unit_without_a_price_row(self):
        case = hour.worked_hour()
        case["rows1"] = []
        case["readings"][0] = replace(case["readings"][0], opportunity=16, planning=5, noncooperation=3)
        _, figures = settle_hour(**case)
        # E / F is 0 / 90 and C / D is 8,000 / 80.
        self.assertEqual(hour.listing(figures), "U C 1 40 130 0\nP 1 50 40 10 20 100 4000\nB 1 130 80\nH 130 50 0\n")

    def test_guaranteed_unit(self):
        entries = [AddPlant(1_000), AddGuaranteed(1, 10, 10, 0, 1), AddGuaranteed(1, 10, 10, 0, 0)]
        _, figures = settle_hour(
            Header(1_000, 0, 0, 7, 0), entries, [], [Tariff(5)],
            [ReadGuaranteed(1, net=101), ReadGuaranteed(2, net=101)], [], [Tariff(3), Tariff(3)])
        self.assertEqual(hour.listing(figures).splitlines()[:2], ["U G 1 0 90 900", "U G 2 0 90 270"])

    def test_com_over_the_last_kwh(self):
        reading = ReadCompetitive(1, net=2_000_000, accepted=2_000_000, lost=2_000_000)
        row = PriceRow(SteppedOffer([(1_999_999, 1), (1, 2)]), Tariff(9))
        self.assertEqual(hour.competitive_parts(reading, 2_000_000, 0, 0, 2_000, 1_000, row).costs, (2_000_001, 0, 0))

    def test_asked_unit(self):
        # a 0, b1 0, b2 [50 × 0.9 × 0.8] = 36; C at the raised cost, since A is 0.
        reading = ReadCompetitive(1, executed=50, alpha=1)
        row = PriceRow(Tariff(10), Tariff(8))
        self.assertEqual(hour.competitive_parts(reading, 40, 0, 1_000, 2_000, 1_000, row).costs, (0, 36 * 8, 4 * 9))


def some_hour(seed):
    """A small hour of pseudo-random calls, some of them refused."""
    pick = random.Random(seed)

    def steps(rising):
        prices = [pick.randrange(0, 900, 50) for _ in range(pick.randint(1, 4))]
        return [(pick.randint(1, 40), price) for price in (sorted(prices) if rising else prices)]

    def competitive():
        return AddCompetitive(plant(), pick.randint(0, 90), pick.choice((0, 400)), pick.choice((None,) * 9 + (8,)))

    def guaranteed():
        gross, seasonal = pick.randint(0, 90), pick.randint(0, 90)
        return AddGuaranteed(plant(), gross, seasonal, pick.choice((0, 400)), pick.randint(0, 1))

    def plant():
        return pick.choice((0, 1, 1, 1, 2, 2, 3))

    entries = [AddPlant(pick.choice((0, 150, 2_000, 2_001))) for _ in range(pick.randint(0, 4))]
    entries += [AddBuyer(pick.choice((0, 300))) for _ in range(pick.randint(0, 4))]
    entries += [competitive() for _ in range(pick.randint(0, 4))] + [guaranteed() for _ in range(pick.randint(0, 4))]
    for _ in range(pick.randint(0, 20)):
        group, unit = pick.choice((1, 1, 2, 2, 3)), pick.randint(1, 4)
        entries.append(pick.choice((
            competitive(), guaranteed(), Commit(plant(), pick.randint(1, 3), pick.randint(0, 90)),
            Commit(plant(), pick.randint(1, 3), pick.randint(1, 90)), Correct(group, unit, pick.randint(0, 90)),
            PutAside(group, unit), TakeBack(group, unit))))
    readings = []
    for _ in range(pick.randint(0, 20)):
        unit = pick.randint(1, 5)
        readings.append(pick.choice((
            ReadCompetitive(unit, *(pick.randint(0, 120) for _ in range(3)), pick.randint(0, 60), pick.randint(0, 120),
                            pick.randint(0, 1), *(pick.randint(0, 9) for _ in range(6)), pick.randint(0, 3),
                            pick.choice((780, 781)), *(pick.randint(0, 30) for _ in range(3))),
            ReadGuaranteed(unit, pick.randint(0, 120), *(pick.randint(0, 9) for _ in range(6)), pick.randint(0, 3), 0),
            ReadBuyer(unit, pick.randint(0, 200)))))
    return dict(
        header=Header(1_000, 10_000, 200, 30, 400), entries=entries,
        offers1=[SteppedOffer(steps(True)) for _ in range(pick.randint(2, 9))],
        offers2=[Tariff(400)] * pick.randint(2, 9), readings=readings,
        rows1=[PriceRow(SteppedOffer(steps(True)), SteppedCost(steps(False))) for _ in range(pick.randint(2, 9))],
        rows2=[Tariff(400)] * pick.randint(2, 9))


# The figures of told_apart.orders, worked out by hand.
ORDERS = """\
U C 1 40 90 6010
U C 2 18 57 20400
U C 3 33 47 2268
U C 4 0 28 2600
U C 5 5 16 3050
U G 1 0 28 12040
U G 2 18 9 3600
U G 3 23 9 3870
U G 4 16 6 2400
U G 5 5 6 2580
U G 6 0 9 3600
P 1 100 92 8 36 509 20008
P 2 56 56 0 38 462 17556
P 3 12 10 2 10 469 5190
B 1 174 114
B 2 59 29
B 3 72 60
B 4 0 -66
H 305 168 0
"""


class ToldApart(unittest.TestCase):
    def test_orders(self):
        case = told_apart.orders()
        answers, figures = settle_hour(**case)
        refused = [call for call, answer in zip(case["entries"] + case["readings"], answers)
                   if isinstance(answer, Refused)]
        self.assertEqual(refused, told_apart.changed()[-4:] + told_apart.sold()[-1:] + told_apart.turned_down())
        limits = [of.limit for of in figures.units.values()]
        self.assertEqual(limits, [45, 51, 61, 0, 5, 0, 18, 23, 18, 5, 0])
        self.assertEqual([of.shares for of in figures.plants.values()], [(51, 49), (40, 16), (6, 6)])
        self.assertEqual(hour.listing(figures), ORDERS)

    def test_rest_at_com(self):
        # Com is kWh 70; a is 63, b 72 and the bill 90.
        row = told_apart.price_rows()[0]
        reading = told_apart.read_last()[0]
        self.assertEqual([row.offer.at(kwh) for kwh in (63, 69, 70, 71, 72, 73, 90)],
                         [110, 130, 140, 150, 160, 170, 180])
        self.assertEqual(hour.competitive_parts(reading, 90, 40, 0, 1_000, 1_000, row).costs, (2_310, 1_180, 2_520))

    def test_four_counts(self):
        _, calls = hour.judge_entries(told_apart.counted_entries())
        kinds = (AddPlant, AddCompetitive, AddGuaranteed, AddBuyer)
        self.assertEqual([len(hour.of_kind(calls, kind)) for kind in kinds], [4, 5, 6, 7])

    def test_full_group(self):
        units = (told_apart.COMPETITIVE_UNIT, told_apart.GUARANTEED_UNIT)
        for one, other in (units, units[::-1]):
            answers, _ = hour.judge_entries(told_apart.full_group(one, other))
            self.assertEqual(answers[-4:], [Accepted(128), Accepted(1), Refused(4), Accepted(2)])


class AnyCalls(unittest.TestCase):
    def test_calls_out_of_turn(self):
        close, settle = Close([], [Tariff(400)]), Settle([], [Tariff(400)])
        calls = [ReadBuyer(1, 5), AddPlant(0), Commit(1, 1, 50), settle, AddBuyer(0), Commit(1, 1, 50), close, AddPlant(0),
                 close, ReadBuyer(1, 5), ReadBuyer(2, 6), ReadBuyer(1, 7), settle, settle, close, ReadBuyer(1, 8),
                 AddBuyer(0)]
        late, one, none, done = OUT_OF_TURN, Accepted(1), Refused(3), DONE
        told, figures = make_calls(HEADER, calls)
        self.assertEqual(told, [late, one, none, late, one, one, done, late, late, one, none, one, done, late, late, late,
                                late])
        self.assertEqual(figures.plants[1].run, 50)
        self.assertEqual(make_calls(HEADER, calls[:12]), (told[:12], None))
        self.assertEqual(make_calls(HEADER, calls[:6]), (told[:6], None))


class SmallHours(unittest.TestCase):
    def test_sums_and_merit_order(self):
        for seed in range(200):
            case = some_hour(seed)
            answers, figures = settle_hour(**case)
            self.assertEqual(len(answers), len(case["entries"]) + len(case["readings"]))
            self.assertEqual(sum(of.net for of in figures.buyers.values()) + figures.unassigned,
                             figures.billed - figures.sold)
            offers = {1: case["offers1"], 2: case["offers2"]}
            for plant, of in figures.plants.items():
                self.assertEqual(of.allocated + of.run, of.sold)
                self.assertEqual(sum(of.shares), of.sold)
                for group in (1, 2):
                    own = [(unit, unit_of) for (its_group, unit), unit_of in figures.units.items()
                           if its_group == group and unit_of.plant == plant]
                    every = sorted((offers[group][unit - 1].price(place), unit, place)
                                   for unit, unit_of in own for place in range(1, unit_of.limit + 1))
                    taken = [unit for _, unit, _ in every[:of.shares[group - 1]]]
                    self.assertEqual([unit_of.allocated for _, unit_of in own],
                                     [taken.count(unit) for unit, _ in own])


if __name__ == "__main__":
    unittest.main()
