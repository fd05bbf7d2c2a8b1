#!/usr/bin/env python3
"""Hours of full energies: units to 2,000,000 kWh, plants that commit to 20,000,000, buyers that use to 50,000,000.

    python3 reference/full_hours.py [COUNT [SEED]]

prints how often each branch of the rules occurs in COUNT such files (1000) drawn by SEED (2), and how large their hours
are. Damaged files aren't counted. The hours are calculated by stretches of equal price.
"""
import os
import sys
from collections import Counter, defaultdict

sys.dont_write_bytecode = True
sys.path.insert(0, os.path.dirname(os.path.abspath(__file__)))

import hour
from cases import Random, count_branches
from file_cases import MOST_PRICE, MOST_VOLUME, Drawing, damaged, record, shuffled
from hour_file import (BUYER, BUYER_READING, COMMIT, COMPETITIVE, COMPETITIVE_READING, CORRECT, GUARANTEED,
                       GUARANTEED_READING, PLANT, PUT_ASIDE, TAKE_BACK, hour_of, write_file)
from stretches import BY_STRETCHES

MOST_KWH, MOST_USE = hour.MOST_KWH, 50_000_000

ROOMS = {PLANT: hour.PLANTS, COMPETITIVE: hour.UNITS, GUARANTEED: hour.UNITS, BUYER: hour.BUYERS,
         COMMIT: hour.COMMITMENTS}

READING_OF = {COMPETITIVE: COMPETITIVE_READING, GUARANTEED: GUARANTEED_READING}


class FullDrawing(Drawing):
    """Draws the records of an hour of full energies without a fault.

    In a `near` hour each plant is billed about what it sold, so that what rates are divided by is small or not
    positive. In one hour of sixteen no buyer uses anything.
    """

    def __init__(self, random, plan, every, near):
        super().__init__(random, plan, MOST_KWH + 1, every or near)
        self.near = near
        self.rise = random.one_of((2, 3, 1_000))
        self.volume = random.one_of((1_000, 100_000, 1_000_000, MOST_VOLUME))
        self.most_use = 0 if random.below(16) == 0 else MOST_USE
        self.sold, self.units, self.nets = Counter(), defaultdict(list), {}

    def up_to(self, most):
        """A number up to `most`; now and then 0 or `most` itself."""
        return self.random.one_of((0, most, *[self.random.below(most + 1)] * 14))

    # Entries

    def gross(self):
        return self.up_to(MOST_KWH)

    def width(self):
        return self.random.below(self.random.one_of((10, 5_000, 300_000, 300_000, MOST_KWH))) + 1

    def offer(self):
        values, level = [], self.random.below(self.rise)
        for _ in range(self.step_count()):
            values += [self.width(), min(level * self.price, MOST_PRICE)]
            level += self.random.below(self.rise)
        return values

    def with_room(self):
        """The plants that may commit more."""
        return [plant for plant in range(1, self.there[PLANT] + 1) if self.sold[plant] < MOST_VOLUME]

    def possible(self, kind):
        return super().possible(kind) and (kind != COMMIT or bool(self.with_room()))

    def commit(self):
        plant = self.random.one_of(self.with_room())
        volume = min(self.up_to(self.volume - 1) + 1, MOST_VOLUME - self.sold[plant])
        self.sold[plant] += volume
        return record(COMMIT, plant, self.one_of_the(BUYER), volume)

    def entry(self, kind):
        if kind == PLANT and self.near:
            return record(PLANT, 0)
        drawn = super().entry(kind)
        if kind in READING_OF:
            self.units[drawn.values[0]].append((READING_OF[kind], self.there[kind] + 1))
        return drawn

    # Readings

    def field(self, kind):
        match kind:
            case "energy":
                return self.up_to(MOST_KWH)
            case "half":
                return self.up_to(MOST_KWH // self.random.one_of((1, 2, 2)))
            case _:
                return super().field(kind)

    def near_nets(self, plant):
        """Net energies of the plant's units that add up to about what it sold."""
        nets, left = {}, max(self.sold[plant] + self.random.below(60) - 20, 0)
        for unit in shuffled(self.random, self.units[plant]):
            nets[unit] = min(self.random.below(left + 1), MOST_KWH)
            left -= nets[unit]
        for unit in nets:
            more = min(left, MOST_KWH - nets[unit])
            nets[unit] += more
            left -= more
        return nets

    def reading(self, kind, number):
        if kind == BUYER_READING:
            return record(kind, number, self.up_to(self.most_use))
        drawn = super().reading(kind, number)
        net = self.nets.get((kind, number), drawn.values[1])
        return record(kind, number, net, *drawn.values[2:])

    def readings(self):
        for plant in self.units if self.near else ():
            self.nets |= self.near_nets(plant)
        return super().readings()


def full_hour(random):
    """The records of an hour. Half of the hours have as many plants, units, buyers and commitments as there is room
    for, and ten steps in each list. One in four is near."""
    largest = random.below(2) == 0
    plan = {kind: room if largest else random.below(room) + 1 for kind, room in ROOMS.items()}
    plan |= {CORRECT: random.below(60), PUT_ASIDE: random.below(20), TAKE_BACK: random.below(20)}
    return FullDrawing(random, plan, every=largest, near=random.below(4) == 0).hour()


def full_file(random):
    """The records of an hour, and its file, which one time in ten is damaged."""
    records = full_hour(random)
    return records, damaged(random, records) if random.below(10) == 0 else write_file(records)


# How large they are -------------------------------------------------------------------------------------------------

def count_sizes(counts, figures):
    for of in figures.units.values():
        counts["unit with over 1,000,000 kWh allocated"] += of.allocated > 1_000_000
        counts["unit with over 1,000,000 kWh billed"] += of.bill > 1_000_000
        counts["unit with 2,000,000 kWh billed"] += of.bill == MOST_KWH
        counts["unit paid over 10^12"] += of.payment > 10**12
    for of in figures.plants.values():
        counts["plant with 20,000,000 kWh committed"] += of.sold == MOST_VOLUME
        counts["plant with over 1,000,000 kWh of run support"] += of.run > 1_000_000
        counts["plant whose support costs over 10^15"] += of.cost > 10**15
    counts["hour"] += 1
    counts["hour of 128 units in each group"] += len(figures.units) == 2 * hour.UNITS


def undamaged(count, seed):
    """The records of `count` files, those of damaged ones left out."""
    random = Random(seed)
    for _ in range(count):
        records, data = full_file(random)
        if data == write_file(records):
            yield records


def shapes(count, seed):
    """The counts, a line each."""
    counts = Counter()
    for records in undamaged(count, seed):
        case = hour_of(records)
        count_branches(counts, case, BY_STRETCHES)
        count_sizes(counts, hour.settle_hour(**case, sums=BY_STRETCHES)[1])
    return "".join(f"{count:7} {name}\n" for name, count in sorted(counts.items()))


def main():
    count, seed = [int(word) for word in sys.argv[1:]] + [1_000, 2][len(sys.argv) - 1:]
    print(shapes(count, seed), end="")


if __name__ == "__main__":
    main()
