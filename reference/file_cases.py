#!/usr/bin/env python3
"""Hour files and what a program that reads them must print, by the second calculation of hour_file.py alone.

    python3 reference/file_cases.py FOLDER

writes the stored cases to the folder: NNN.hour is a file, NNN.want its listing or its fault line. `random_file` draws
further files of all kinds, damaged ones and ones too large to be stored among them.
"""
import os
import sys
from collections import Counter
from dataclasses import astuple

sys.dont_write_bytecode = True
sys.path.insert(0, os.path.dirname(os.path.abspath(__file__)))

import hour
import told_apart
from cases import COMPETITIVE_FIELDS, GUARANTEED_FIELDS, MOST, Random
from hour_file import (BUYER, BUYER_READING, CLOSE, COMMIT, COMPETITIVE, COMPETITIVE_READING, CORRECT, COUNTS, ENTRIES,
                       GUARANTEED, GUARANTEED_READING, HEADER, MOST_BYTES, MOST_VALUE, PLANT, PUT_ASIDE, READINGS, SETTLE,
                       TAKE_BACK, VALUE, WORD, Record, bytes_of, head, kind_of, list_file, number_of, spell, write_file)

# How many random hours the stored cases hold as drawn, and how many damaged; and the most bytes of such a file.
LAWFUL, DAMAGED = 70, 130
MOST_STORED = 6_000

KINDS = range(HEADER, SETTLE + 1)
MOST_KWH, MOST_VOLUME, MOST_PRICE = 2_000_000, 20_000_000, 10_000_000

FAULTS = ([f"F {number}" for number in (12, 14, 15, 16)] + ["O 8", "O 9"]
          + [f"B {number}" for number in (1, 2, 3, 4, 5, 6, 7, 9, 10, 11)])


def record(kind, *values):
    return Record(kind, values)


def shuffled(random, items):
    return [item for _, _, item in sorted((random.below(2**31), place, item) for place, item in enumerate(items))]


# Drawn hours --------------------------------------------------------------------------------------------------------

class Drawing:
    """Draws the records of an hour without a fault. `plan` says how many of each kind of entry there are."""

    def __init__(self, random, plan, energy, every=False):
        """`energy` bounds the energies. With `every` all lists have ten steps, each unit and buyer is read once, and
        volumes are small."""
        self.random, self.plan, self.energy, self.every = random, plan, energy, every
        self.most_steps = random.one_of((1, 3, 3, 10))
        self.price = random.one_of((1, 100, 100, 1_000_000))
        self.gain = random.one_of((1, 60, 60, 100_000_001))
        self.penalty = random.one_of((1, 1, 60, 100_000_001))
        self.there = Counter()

    def percentage(self):
        return self.random.one_of((0, 0, 0, 1, 150, 300, 1_234, 2_000))

    def gross(self):
        return self.random.below(self.energy)

    def one_of_the(self, kind):
        return self.random.below(self.there[kind]) + 1

    def header(self):
        ceiling = self.random.one_of((0, 300, 1_000, MOST_PRICE))
        cpf = self.random.one_of((0, 9_000, 10_000, 50_000))
        bar = self.random.one_of((0, 200, 777, 1_000_000))
        saving = self.random.one_of((0, 30, 45, MOST_PRICE))
        return record(HEADER, ceiling, cpf, bar, saving, self.random.below(10) * self.price)

    # Entries

    def step_count(self):
        return 10 if self.every else self.random.below(self.most_steps) + 1

    def width(self):
        return MOST_KWH if self.random.below(40) == 0 else self.random.below(self.energy // 3) + 1

    def offer(self):
        values, level = [], self.random.below(3)
        for _ in range(self.step_count()):
            values += [self.width(), min(level * self.price, MOST_PRICE)]
            level += self.random.below(3)
        return values

    def cost(self):
        values = []
        for _ in range(self.step_count()):
            values += [self.width(), self.random.below(10) * self.price]
        return values

    def competitive(self):
        offer = self.offer()
        return record(COMPETITIVE, self.one_of_the(PLANT), self.gross(), self.percentage(), len(offer) // 2, *offer,
                      *self.cost())

    def guaranteed(self):
        return record(GUARANTEED, self.one_of_the(PLANT), self.gross(), self.gross(), self.percentage(),
                      self.random.below(2))

    def commit(self):
        most = self.energy // 10 if self.every else self.energy
        return record(COMMIT, self.one_of_the(PLANT), self.one_of_the(BUYER), self.random.below(most) + 1)

    def change(self, kind):
        units = self.random.one_of([units for units in (COMPETITIVE, GUARANTEED) if self.there[units]])
        group = 1 if units == COMPETITIVE else 2
        return record(kind, group, self.one_of_the(units), *([self.gross()] if kind == CORRECT else []))

    def entry(self, kind):
        if kind in (PLANT, BUYER):
            return record(kind, self.percentage())
        own = {COMPETITIVE: self.competitive, GUARANTEED: self.guaranteed, COMMIT: self.commit}
        return own[kind]() if kind in own else self.change(kind)

    def possible(self, kind):
        """Whether what an entry of this kind names is there."""
        if kind in (PLANT, BUYER):
            return True
        if kind in (COMPETITIVE, GUARANTEED):
            return self.there[PLANT] > 0
        if kind == COMMIT:
            return self.there[PLANT] > 0 and self.there[BUYER] > 0
        return self.there[COMPETITIVE] + self.there[GUARANTEED] > 0

    def take(self, kinds):
        """The entries of the kinds in their order, and the kinds that weren't possible at their turn."""
        drawn, put_off = [], []
        for kind in kinds:
            if self.possible(kind):
                drawn.append(self.entry(kind))
                self.there[kind] += 1
            else:
                put_off.append(kind)
        return drawn, put_off

    def entries(self):
        """Entries in any order. One that isn't possible at its turn is put off to the end, or left out."""
        first, put_off = self.take(shuffled(self.random, [kind for kind in self.plan for _ in range(self.plan[kind])]))
        return first + self.take(sorted(put_off))[0]

    # Readings

    def field(self, kind):
        match kind:
            case "energy":
                return self.random.below(self.energy)
            case "half":
                return self.random.below(self.energy // 2)
            case "part":
                return self.random.often_none(self.energy // 8)
            case "mark":
                return self.random.below(2)
            case "day":
                return self.random.one_of((0, 1, 2, 2, 3, 400))
            case "minute":
                return self.random.one_of((0, 779, 780, 781, 1_439))
            case "gain":
                return self.random.often_none(self.gain)
            case "penalty":
                return self.random.often_none(self.penalty)

    def reading(self, kind, number):
        if kind == BUYER_READING:
            return record(kind, number, self.random.one_of((0, 1, self.energy, self.random.below(self.energy))))
        names = COMPETITIVE_FIELDS if kind == COMPETITIVE_READING else GUARANTEED_FIELDS
        fields = [self.field(name) for name in names]
        if kind == COMPETITIVE_READING:
            fields[3] = min(fields[3], fields[1] + fields[2])
        return record(kind, number, *fields)

    def readings(self):
        """Most units and buyers are read, and some again."""
        read = []
        for kind, of in ((COMPETITIVE_READING, COMPETITIVE), (GUARANTEED_READING, GUARANTEED), (BUYER_READING, BUYER)):
            for number in range(1, self.there[of] + 1):
                times = 1 if self.every else self.random.one_of((0, 1, 1, 1, 1, 1, 1, 2))
                read += [(kind, number)] * times
        return [self.reading(kind, number) for kind, number in shuffled(self.random, read)]

    def hour(self):
        entries = self.entries()
        return [self.header(), *entries, record(CLOSE), *self.readings(), record(SETTLE)]


def lawful_hour(random):
    plants, buyers = random.one_of((0, 1, 1, 1, 2, 2, 3, 4, 6, 8, 12)), random.one_of((0, 1, 1, 2, 3, 5, 9))
    competitive, guaranteed = (random.below(min(3 * plants, 16) + 1) for _ in range(2))
    plan = {PLANT: plants, COMPETITIVE: competitive, GUARANTEED: guaranteed, BUYER: buyers, COMMIT: random.below(20),
            CORRECT: random.below(5), PUT_ASIDE: random.below(4), TAKE_BACK: random.below(3)}
    energy = random.one_of((3, 30, 160, 400))
    return Drawing(random, plan, max(3, min(energy, 2_400 // (competitive + guaranteed + 1)))).hour()


def large_energies(random):
    plan = {PLANT: 1, COMPETITIVE: 1, GUARANTEED: 1, BUYER: 2, COMMIT: 3}
    return Drawing(random, plan, 60_000).hour()


def largest_hour(random):
    plan = {PLANT: 32, COMPETITIVE: 128, GUARANTEED: 128, BUYER: 64, COMMIT: 768}
    return Drawing(random, plan, 60, every=True).hour()


# Both sides of each limit -------------------------------------------------------------------------------------------

WORKED = [
    record(HEADER, 1_000, 10_000, 200, 0, 0), record(PLANT, 0), record(BUYER, 0),
    record(COMPETITIVE, 1, 40, 0, 2, 100, 300, 100, 500, 100, 350), record(COMMIT, 1, 1, 50), record(CLOSE),
    record(COMPETITIVE_READING, 1, 130, 110, 0, 20, 0, 0, 30, *[0] * 10), record(BUYER_READING, 1, 200), record(SETTLE),
]

# One record of each kind.
BASE = [
    record(HEADER, 1_000, 10_000, 200, 30, 400), record(PLANT, 150), record(BUYER, 300),
    record(COMPETITIVE, 1, 40, 100, 2, 30, 300, 30, 500, 50, 350, 20, 250), record(GUARANTEED, 1, 30, 25, 200, 1),
    record(COMMIT, 1, 1, 50), record(CORRECT, 1, 1, 45), record(PUT_ASIDE, 2, 1), record(TAKE_BACK, 2, 1),
    record(CLOSE), record(COMPETITIVE_READING, 1, 60, 40, 5, 10, 50, 1, 30, 1, 2, 3, 4, 5, 2, 781, 5, 3, 2),
    record(GUARANTEED_READING, 1, 28, 20, 5, 4, 3, 2, 1, 1, 0), record(BUYER_READING, 1, 77), record(SETTLE),
]

# The second sample: two plants, two buyers and five units, one of them put aside. Its listing is worked out by hand.
TWO_PLANTS = [
    record(HEADER, 500, 9_000, 300, 30, 200), record(PLANT, 200), record(PLANT, 0), record(BUYER, 0),
    record(BUYER, 1_000), record(COMPETITIVE, 1, 50, 0, 2, 40, 300, 60, 400, 100, 420),
    record(COMPETITIVE, 1, 30, 500, 2, 20, 300, 20, 500, 40, 250),
    record(COMPETITIVE, 2, 50, 100, 2, 30, 200, 30, 600, 60, 450), record(COMPETITIVE, 2, 40, 0, 1, 40, 100, 40, 80),
    record(GUARANTEED, 1, 45, 20, 0, 1), record(COMMIT, 1, 1, 80), record(COMMIT, 1, 2, 20), record(COMMIT, 2, 1, 35),
    record(CORRECT, 1, 1, 60), record(PUT_ASIDE, 1, 4), record(PUT_ASIDE, 2, 1), record(TAKE_BACK, 2, 1),
    record(CLOSE), record(COMPETITIVE_READING, 1, 70, 60, 0, 10, 50, 0, 40, 2, 0, 0, 4, 0, 1, 0, 0, 0, 0),
    record(COMPETITIVE_READING, 2, 30, 20, 0, 0, 25, 1, 22, 0, 0, 0, 3, 0, 2, 780, 1, 4, 0),
    record(COMPETITIVE_READING, 3, 45, 30, 5, 0, 0, 0, 20, 0, 0, 0, 0, 0, 0, 0, 0, 0, 2),
    record(COMPETITIVE_READING, 4, 10, 0, 0, 0, 0, 0, 5, *[0] * 10),
    record(GUARANTEED_READING, 1, 50, 10, 1, 0, 0, 0, 0, 0, 0), record(BUYER_READING, 1, 100),
    record(BUYER_READING, 2, 90), record(BUYER_READING, 2, 77), record(SETTLE),
]

# Values on both sides of each limit, by kind and place in the base hour, which has one of everything.
SIDES = {
    HEADER: [(MOST_PRICE, MOST_PRICE + 1), (50_000, 50_001), (1_000_000, 1_000_001), (MOST_PRICE, MOST_PRICE + 1),
             (MOST_PRICE, MOST_PRICE + 1)],
    PLANT: [(0, 2_000, 2_001)],
    COMPETITIVE: [(0, 2), (0, MOST_KWH, MOST_KWH + 1), (2_000, 2_001)],
    GUARANTEED: [(0, 2), (0, MOST_KWH, MOST_KWH + 1), (0, MOST_KWH, MOST_KWH + 1), (2_000, 2_001), (0, 2)],
    BUYER: [(0, 2_000, 2_001)],
    COMMIT: [(0, 2), (0, 2), (0, 1, MOST_VOLUME, MOST_VOLUME + 1)],
    CORRECT: [(0, 2, 3), (0, 2), (0, MOST_KWH, MOST_KWH + 1)],
    PUT_ASIDE: [(0, 1, 3), (0, 2)],
    TAKE_BACK: [(0, 1, 3), (0, 2)],
    COMPETITIVE_READING: [(0, 2)] + [(MOST[name], MOST[name] + 1) for name in COMPETITIVE_FIELDS],
    GUARANTEED_READING: [(0, 2)] + [(MOST[name], MOST[name] + 1) for name in GUARANTEED_FIELDS],
    BUYER_READING: [(0, 2), (50_000_000, 50_000_001)],
}

# Pairs of step lists, an offer and a cost curve, that are made or refused with 8 or 9.
FINE = [(10, 5)]
STEP_LISTS = [
    ([(1, 5)] * 10, [(1, 5)] * 10), ([(1, 5)] * 11, FINE), (FINE, [(1, 5)] * 11), ([], FINE), (FINE, []), ([], []),
    ([(0, 5)], FINE), (FINE, [(0, 5)]), ([(MOST_KWH, 5)], [(MOST_KWH, 5)]), ([(MOST_KWH + 1, 5)], FINE),
    (FINE, [(MOST_KWH + 1, 5)]), ([(1, 5)] * 9 + [(0, 5)], FINE), (FINE, [(1, 5)] * 9 + [(MOST_KWH + 1, 5)]),
    ([(1, 5), (1, 5)], FINE), ([(1, 5), (1, 4)], FINE), (FINE, [(1, 5), (1, 4)]),
    ([(10, MOST_PRICE)], [(10, MOST_PRICE)]), ([(10, MOST_PRICE + 1)], FINE), (FINE, [(10, MOST_PRICE + 1)]),
    ([(1, 5)] * 9 + [(1, MOST_PRICE + 1)], FINE), (FINE, [(1, 5)] * 9 + [(1, MOST_PRICE + 1)]),
    ([(1, 20_000_000), (1, 15_000_000)], FINE), (FINE, [(1, 20_000_000), (1, 15_000_000)]),
    ([(1, MOST_PRICE + 1)], [(0, 5)]), ([(0, 5)], [(1, MOST_PRICE + 1)]), ([(1, MOST_PRICE + 1)], []),
    ([(1, MOST_PRICE + 1)], [(1, MOST_PRICE + 1)]), ([(1, MOST_PRICE + 1)] * 11, FINE),
    ([(1, MOST_VALUE)], FINE), ([(MOST_VALUE, 5)], FINE), (FINE, [(MOST_VALUE, MOST_VALUE)]),
]


def place_of(records, kind):
    return [one.kind for one in records].index(kind)


def with_values(records, kind, changes):
    """The records with some values of the first record of a kind changed, by place."""
    place = place_of(records, kind)
    values = tuple(changes.get(at, value) for at, value in enumerate(records[place].values))
    return records[:place] + [Record(kind, values)] + records[place + 1:]


def unit(plant, gross, rho, offer, cost):
    values = [value for step in offer + cost for value in step]
    return record(COMPETITIVE, plant, gross, rho, len(offer), *values)


def sides_of_values():
    for kind, places in SIDES.items():
        for place, values in enumerate(places):
            for value in values:
                changes = {place: value}
                if kind == COMPETITIVE_READING and place == 4:
                    changes[3] = MOST_KWH
                yield with_values(BASE, kind, changes)
    for accepted, lost, limited in ((5, 5, 10), (5, 5, 11), (0, 0, 1), (MOST_KWH, MOST_KWH, MOST_KWH)):
        yield with_values(BASE, COMPETITIVE_READING, {2: accepted, 3: lost, 4: limited})


def sides_of_steps():
    before, after = BASE[:place_of(BASE, COMPETITIVE)], BASE[place_of(BASE, COMPETITIVE) + 1:]
    for offer, cost in STEP_LISTS:
        yield before + [unit(1, 40, 100, offer, cost)] + after


def sides_of_sums():
    """Commitments of one plant to two buyers, on both sides of the most that it may sell."""
    start = [BASE[0], record(PLANT, 0), record(BUYER, 0), record(BUYER, 0), record(PLANT, 0)]
    for volumes in ((19_999_999, 1), (19_999_999, 2), (20_000_000, 1), (20_000_000, 20_000_001),
                    (10_000_000, 10_000_000)):
        commits = [record(COMMIT, 1, place + 1, volume) for place, volume in enumerate(volumes)]
        yield start + commits + [record(COMMIT, 2, 1, MOST_VOLUME), record(CLOSE), record(SETTLE)]


def sides_of_rooms():
    plants, buyers = [record(PLANT, 7)] * 32, [record(BUYER, 7)] * 64
    units = [unit(1, 1, 0, FINE, FINE)] * 128
    guaranteed = [record(GUARANTEED, 1, 1, 1, 0, 0)] * 128
    entries = [
        plants, plants + [record(PLANT, 0)], plants + [record(PLANT, 2_001)], buyers, buyers + [record(BUYER, 0)],
        buyers + [record(BUYER, 2_001)], plants[:1] + units,
        plants[:1] + units + [unit(1, 0, 0, FINE, FINE)], plants[:1] + units + [unit(2, 0, 0, FINE, FINE)],
        plants[:1] + units + [unit(1, 0, 2_001, FINE, FINE)], plants[:1] + units + [unit(1, 0, 0, [], FINE)],
        plants[:1] + guaranteed, plants[:1] + guaranteed + [record(GUARANTEED, 1, 0, 0, 0, 0)],
        plants[:1] + guaranteed + [record(GUARANTEED, 2, 0, 0, 0, 0)],
        plants[:1] + guaranteed + [record(GUARANTEED, 1, 0, 0, 2_001, 2)],
    ]
    for some in entries:
        yield [BASE[0], *some, record(CLOSE), record(SETTLE)]


def two_rows():
    """Records to which two rows of the table of refusals apply."""
    for plant, buyer, volume in ((0, 0, 0), (2, 2, 1), (1, 2, 0), (2, 1, 0)):
        yield with_values(BASE, COMMIT, {0: plant, 1: buyer, 2: volume})
    for changes in ({0: 2, 2: 2_001}, {1: MOST_KWH + 1, 2: 2_001}, {0: 2, 4: 0}, {2: 2_001, 4: 0},
                    {1: MOST_KWH + 1, 4: 0}, {1: MOST_KWH + 1, 5: MOST_PRICE + 1}, {4: 0, 7: MOST_PRICE + 1}):
        yield with_values(BASE, COMPETITIVE, changes)
    for changes in ({0: 2, 4: 2}, {3: 2_001, 4: 2}, {1: MOST_KWH + 1, 3: 2_001}, {2: MOST_KWH + 1, 4: 2}):
        yield with_values(BASE, GUARANTEED, changes)
    for group, number in ((3, 1), (1, 2)):
        yield with_values(BASE, CORRECT, {0: group, 1: number, 2: MOST_KWH + 1})
    for changes in ({0: 2, 1: MOST_KWH + 1}, {1: MOST_KWH + 1, 16: 100_000_001}, {2: 0, 3: 0, 4: MOST_KWH + 1},
                    {6: 2, 15: 100_000_001}, {4: 46, 14: 1_440}, {4: 46, 17: 100_000_001}, {0: 0, 4: 46}):
        yield with_values(BASE, COMPETITIVE_READING, changes)
    for changes in ({2: MOST_KWH + 1, 8: 401}, {0: 2, 8: 401}):
        yield with_values(BASE, GUARANTEED_READING, changes)
    yield with_values(BASE, BUYER_READING, {0: 2, 1: 50_000_001})


# Hours given as calls -----------------------------------------------------------------------------------------------

KIND_OF = {call: kind for kind, call in (ENTRIES | READINGS).items()}


def record_of_call(call, rows):
    """The record of a call. A competitive unit takes the next of the price rows."""
    if isinstance(call, hour.AddCompetitive):
        row = next(rows)
        return unit(call.plant, call.gross, call.rho, list(row.offer.steps), list(row.cost.steps))
    return record(KIND_OF[type(call)], *astuple(call))


def records_of_hour(case):
    """The records of the accepted calls of an hour whose guaranteed units have the header's tariff."""
    _, entries = hour.judge_entries(case["entries"])
    _, readings = hour.judge_readings(case["readings"], entries)
    rows = iter(case["rows1"])
    return [record(HEADER, *astuple(case["header"])), *(record_of_call(call, rows) for call in entries), record(CLOSE),
            *(record_of_call(call, rows) for call in readings), record(SETTLE)]


# Fixed faults of form -----------------------------------------------------------------------------------------------

def wrong_counts():
    """Each kind with a value too few and a value too many: counted so, and counted as if they weren't."""
    for place, one in enumerate(BASE):
        kind, values = one.kind, one.values
        before, after = spell(BASE[:place]), spell(BASE[place + 1:])
        for wrong in ([*values, 0], values[:-1]):
            if len(wrong) != len(values):
                yield bytes_of([*before, head(kind, len(wrong)), *wrong, *after])
                yield bytes_of([*before, head(kind, len(values)), *wrong, *after])
                yield bytes_of([*before, head(kind, len(wrong)), *values, *after])


def wrong_places():
    """A record of each kind in the first place, after the header, after close and after settle."""
    close = place_of(BASE, CLOSE)
    for kind in KINDS:
        one = BASE[place_of(BASE, kind)]
        yield write_file([one] + BASE)
        yield write_file(BASE[:close] + [one] + BASE[close:])
        yield write_file(BASE[:close + 1] + [one] + BASE[close + 1:])
        yield write_file(BASE + [one])
    for kind in (HEADER, CLOSE, SETTLE):
        place = place_of(BASE, kind)
        yield write_file(BASE[:place] + BASE[place + 1:])


def strange_words():
    """Between records words that are no head of a record, and units whose count doesn't fit."""
    for word in (0, MOST_VALUE, head(15, 0), head(15, 2), head(PLANT, MOST_VALUE), 2**32 - 1):
        for place in (0, 1, place_of(BASE, CLOSE), len(BASE) - 1, len(BASE)):
            yield bytes_of([*spell(BASE[:place]), word, *spell(BASE[place:])])
    before, after = BASE[:place_of(BASE, COMPETITIVE)], BASE[place_of(BASE, COMPETITIVE) + 1:]
    for values in ((), (1,), (1, 40), (1, 40, 0), (1, 40, 0, 0), (1, 40, 0, 1), (1, 40, 0, 0, 9), (1, 40, 0, 1, 9),
                   (1, 40, 0, 0, 9, 5), (1, 40, 0, 1, 9, 5), (1, 40, 0, 2, 9, 5), (1, 40, 0, 1, 9, 5, 9),
                   (1, 40, 0, 1, 9, 5, 9, 5), (1, 40, 0, 2, 9, 5, 9, 5), (1, 40, 0, 3, 9, 5, 9, 5),
                   (1, 40, 0, MOST_VALUE, 9, 5), (1, 40, 0, 2**27, 9, 5), (2, 40, 0, 2, 9, 5)):
        yield write_file(before + [record(COMPETITIVE, *values)] + after)


def two_faults():
    """Files with two faults. The earlier record's is told, and of one record's faults 15 before 16 before a refusal."""
    refused, malformed = record(PLANT, 2_001), record(PLANT, 1, 2)
    close = place_of(BASE, CLOSE)
    start, rest = BASE[:close], BASE[close:]
    yield write_file(start + [refused, malformed] + rest)
    yield write_file(start + [malformed, refused] + rest)
    yield write_file(start + [refused, BASE[0]] + rest)
    yield write_file(start + [BASE[0], refused] + rest)
    yield write_file(start + [record(SETTLE), malformed] + rest)
    yield write_file(start + [malformed, record(SETTLE)] + rest)
    yield write_file(start + [refused])
    yield write_file([refused] + BASE)
    yield write_file([malformed] + BASE)
    yield write_file(start + [record(CLOSE), refused] + rest)
    yield write_file(start + [record(CLOSE), malformed] + rest)
    yield write_file(start + [record(BUYER_READING, 9, 9)] + rest)
    yield write_file(start + [record(BUYER_READING, 9)] + rest)
    yield write_file(with_values(BASE, HEADER, {1: 50_001}) + [malformed])
    yield write_file(with_values(BASE, HEADER, {1: 50_001})[:1])
    yield write_file(BASE + [refused])
    yield write_file(BASE + [malformed])
    yield write_file(BASE + [record(SETTLE, 0)])
    yield bytes_of(spell(BASE) + [0, head(SETTLE, 0)])
    yield bytes_of(spell(BASE) + [head(PLANT, 1)])
    yield bytes_of(spell([refused] + BASE[1:]) + [0])
    yield bytes_of(spell(start + [refused]) + [0, 0])
    yield bytes_of(spell(start) + [head(PLANT, 1), 2_001, 5] + spell(rest))
    yield bytes_of(spell(start) + [head(PLANT, 1), 2_000, 5] + spell([refused] + rest))
    yield bytes_of(spell(BASE[:1]) + [head(HEADER, 5), 1, 1] + spell(BASE[1:]))
    for length in (1, 2, 3, 5, 195, 197, 198):
        yield (write_file(WORKED) + b"\xff\xff")[:length]
    yield write_file([refused] + BASE)[:-1]
    yield b"\0\0\0\xff\0"


# Damages to records, words and bytes --------------------------------------------------------------------------------

# Small numbers, and values at limits and past them.
ODD_VALUES = (0, 0, 1, 2, 3, 11, 401, 1_440, 2_000, 2_001, 50_001, 1_000_001, MOST_KWH + 1, MOST_PRICE, MOST_PRICE + 1,
              MOST_VOLUME, MOST_VOLUME + 1, 50_000_001, 100_000_001, MOST_VALUE)


def replaced(items, place, *new):
    return items[:place] + list(new) + items[place + 1:]


def inserted(items, place, *new):
    return items[:place] + list(new) + items[place:]


def value_changed(random, records):
    """One value of a record changed, now and then two."""
    place = random.below(len(records))
    values = list(records[place].values)
    for _ in range(random.one_of((1, 1, 2)) if values else 0):
        at = random.below(len(values))
        values = replaced(values, at, random.one_of(ODD_VALUES + (values[at] + 1,)))
    return replaced(records, place, Record(records[place].kind, tuple(values)))


def limit_passed(random, records):
    """One value of a record just past its limit."""
    place = random.below(len(records))
    sides = SIDES.get(records[place].kind)
    if not sides:
        return value_changed(random, records)
    at = random.below(len(sides))
    values = replaced(list(records[place].values), at, sides[at][-1])
    return replaced(records, place, Record(records[place].kind, tuple(values)))


def sum_passed(random, records):
    """More UL energy than accepted and lost energy, a plant that commits too much, or too many plants."""
    places = [place for place, one in enumerate(records) if one.kind in (COMPETITIVE_READING, COMMIT, PLANT)]
    if not places:
        return value_changed(random, records)
    place = random.one_of(places)
    kind, values = records[place].kind, list(records[place].values)
    if kind == PLANT:
        return inserted(records, place, *[records[place]] * random.one_of((31, 32)))
    if kind == COMMIT:
        largest = record(COMMIT, *values[:2], MOST_VOLUME - random.below(60))
        return inserted(records, place, *[largest] * (random.below(2) + 1))
    return replaced(records, place, record(kind, *replaced(values, 4, values[2] + values[3] + random.below(2))))


def value_more_or_fewer(random, records):
    place = random.below(len(records))
    values = records[place].values
    values = values[:-1] if random.below(2) == 0 else (*values, random.one_of(ODD_VALUES))
    return replaced(records, place, Record(records[place].kind, values))


def record_dropped(random, records):
    return replaced(records, random.below(len(records)))


def record_doubled(random, records):
    place = random.below(len(records))
    return inserted(records, place, records[place])


def record_moved(random, records):
    place = random.below(len(records))
    rest = replaced(records, place)
    return inserted(rest, random.below(len(rest) + 1), records[place])


def records_swapped(random, records):
    one, other = random.below(len(records)), random.below(len(records))
    records = list(records)
    records[one], records[other] = records[other], records[one]
    return records


def record_added(random, records):
    """One record more, of any kind, with small values."""
    kind = random.one_of(KINDS)
    values = [random.below(3) for _ in range(COUNTS.get(kind, 8))]
    return inserted(records, random.below(len(records) + 1), record(kind, *values))


def order_broken(random, records):
    """The header, close or settle once more, or not at all."""
    kind = random.one_of((HEADER, CLOSE, SETTLE))
    own = [one for one in records if one.kind == kind]
    if own and random.below(2) == 0:
        return [one for one in records if one.kind != kind]
    return inserted(records, random.below(len(records) + 1), *own)


def steps_changed(random, records):
    places = [place for place, one in enumerate(records) if one.kind == COMPETITIVE]
    if not places:
        return value_changed(random, records)
    place = random.one_of(places)
    values = list(records[place].values)
    count = values[3]
    match random.below(9):
        case 0:
            values = replaced(values, 3, random.one_of((0, max(count, 1) - 1, count + 1, 11, 2**27, MOST_VALUE)))
        case 1:
            values = values[:-1]
        case 2:
            values = values[:3] + [11] + values[4:6] * 11 + values[4 + 2 * count:]
        case 3:
            values = values[:4 + 2 * count] + values[-2:] * 11
        case 4:
            values = values[:4 + 2 * count]
        case 5:
            values = values[:3] + [0] + values[4 + 2 * count:]
        case 6:
            values = replaced(values, 5 + 2 * random.below((len(values) - 4) // 2), MOST_PRICE + 1)
        case _:
            values = replaced(values, random.below(len(values)), random.one_of(ODD_VALUES))
    return replaced(records, place, record(COMPETITIVE, *values))


RECORD_DAMAGES = (value_changed, value_changed, limit_passed, limit_passed, sum_passed, sum_passed, value_more_or_fewer,
                  record_dropped, record_doubled, record_moved, records_swapped, record_added, order_broken,
                  steps_changed, steps_changed)


def any_word(random):
    return random.one_of((0, 1, MOST_VALUE, head(15, 0), 2**32 - 1, head(random.below(16), random.below(8)),
                          head(random.below(16), random.one_of(ODD_VALUES))))


def word_dropped(random, words):
    return replaced(words, random.below(len(words)))


def word_doubled(random, words):
    place = random.below(len(words))
    return inserted(words, place, words[place])


def word_added(random, words):
    return inserted(words, random.below(len(words) + 1), any_word(random))


def word_changed(random, words):
    return replaced(words, random.below(len(words)), any_word(random))


def words_swapped(random, words):
    return records_swapped(random, words)


def a_head(random, words):
    """The place of a head, or 0 where there is none."""
    return random.one_of([place for place, word in enumerate(words) if kind_of(word) != VALUE] or [0])


def kind_changed(random, words):
    place = a_head(random, words)
    return replaced(words, place, head(random.below(16), number_of(words[place])))


def count_changed(random, words):
    place = a_head(random, words)
    count = number_of(words[place])
    count = random.one_of((max(count, 1) - 1, count + 1, 0, 4, MOST_VALUE))
    return replaced(words, place, head(kind_of(words[place]), count))


def surplus_added(random, words):
    """Values before a head."""
    return inserted(words, a_head(random, words), *[random.below(3)] * (random.below(2) + 1))


def words_cut(random, words):
    return words[:random.below(len(words))]


def words_appended(random, words):
    return words + [any_word(random) for _ in range(random.below(3) + 1)]


WORD_DAMAGES = (word_dropped, word_doubled, word_added, word_changed, words_swapped, kind_changed, count_changed,
                count_changed, surplus_added, surplus_added, words_cut, words_cut, words_appended)


def byte_changed(random, data):
    place = random.below(len(data))
    return data[:place] + bytes([data[place] ^ random.below(255) + 1]) + data[place + 1:]


def bytes_cut(random, data):
    return data[:random.below(len(data))]


BYTE_DAMAGES = (byte_changed, byte_changed, byte_changed, byte_changed, bytes_cut)


def damaged(random, records):
    """One damage or two. Those to records come before those to words, and those to bytes last."""
    damages = [random.one_of(random.one_of((RECORD_DAMAGES, RECORD_DAMAGES, WORD_DAMAGES, WORD_DAMAGES, BYTE_DAMAGES)))
               for _ in range(random.one_of((1, 1, 2)))]
    for damage in damages:
        if damage in RECORD_DAMAGES:
            records = damage(random, records)
    words = spell(records)
    for damage in damages:
        if damage in WORD_DAMAGES and words:
            words = damage(random, words)
    data = bytes_of(words)
    for damage in damages:
        if damage in BYTE_DAMAGES and data:
            data = damage(random, data)
    return data


# Files too large to be stored ---------------------------------------------------------------------------------------

def full_commitments(random):
    """An hour of 768 commitments, and mostly one more."""
    start = [BASE[0], record(PLANT, 0), record(BUYER, 0), unit(1, 40, 0, FINE, FINE)]
    commits = [record(COMMIT, 1, 1, random.below(5) + 1) for _ in range(768)]
    last = random.one_of(((), (1, 1, 1), (1, 1, 0), (1, 1, MOST_VOLUME + 1), (1, 2, 1), (2, 1, 1)))
    return write_file(start + commits + [record(COMMIT, *last)] * bool(last) + [record(CLOSE), record(SETTLE)])


def filled_to(words, random):
    """An hour without a fault of so many words; most are readings of a buyer and changes of a unit."""
    count = words - len(spell(BASE))
    corrections = count % 3 + 3 * random.below(100)
    fill = [record(CORRECT, random.below(2) + 1, 1, random.below(60)) for _ in range(corrections)]
    close = place_of(BASE, CLOSE)
    uses = [record(BUYER_READING, 1, random.below(99)) for _ in range((count - 4 * corrections) // 3)]
    return BASE[:close] + fill + BASE[close:-1] + uses + BASE[-1:]


def longest_file(random):
    """A file as long as one may be, or longer, or damaged."""
    most = MOST_BYTES // WORD
    match random.below(6):
        case 0:
            return write_file(filled_to(most, random))
        case 1:
            return write_file(filled_to(most + 1 + random.below(5), random))
        case 2:
            return write_file(filled_to(most, random)) + b"\xe0" * (random.below(4) + 1)
        case 3:
            return b"\0" * (MOST_BYTES + random.below(3) * WORD)
        case 4:
            return write_file(filled_to(most - random.below(3), random)[:-1])
        case _:
            damage = random.one_of((word_changed, count_changed, word_dropped))
            return bytes_of(damage(random, spell(filled_to(most, random))))


# All together -------------------------------------------------------------------------------------------------------

def random_file(random):
    chance = random.below(400)
    if chance == 0:
        return write_file(largest_hour(random))
    if chance == 1:
        return write_file(large_energies(random))
    if chance in (2, 3):
        return full_commitments(random)
    if chance in (4, 5):
        return longest_file(random)
    records = lawful_hour(random)
    return write_file(records) if chance < 120 else damaged(random, records)


def changed_bytes(random):
    """The worked hour with each of its bytes changed, one in each file."""
    data = write_file(WORKED)
    for place, byte in enumerate(data):
        yield data[:place] + bytes([byte ^ random.below(255) + 1]) + data[place + 1:]


def short_files(random, draw, count):
    """So many drawn files, each short enough to be stored."""
    found = []
    while len(found) < count:
        data = draw(random)
        if len(data) <= MOST_STORED:
            found.append(data)
    return found


def stored_files():
    """The files of the stored cases, each once."""
    random = Random(1)
    worked = write_file(WORKED)
    files = [b"", worked] + [worked[:end] for end in range(0, len(worked), WORD)]
    for hours in (sides_of_values(), sides_of_steps(), sides_of_sums(), sides_of_rooms(), two_rows()):
        files += map(write_file, hours)
    files += [*wrong_counts(), *wrong_places(), *strange_words(), *two_faults()]
    files += short_files(random, lambda random: write_file(lawful_hour(random)), LAWFUL)
    files += short_files(random, lambda random: damaged(random, lawful_hour(random)), DAMAGED)
    files += changed_bytes(random)
    files += [full_commitments(random) for _ in range(2)]
    files += [write_file(large_energies(random)), write_file(largest_hour(random)), write_file(TWO_PLANTS)]
    files += [write_file(records_of_hour(case)) for case in (told_apart.four_counts(), told_apart.orders())]
    return list(dict.fromkeys(files))


def stored_cases():
    return [(data, list_file(data)) for data in stored_files()]


def fault_of(want):
    """The layer and the number of a fault line, or `listing`."""
    return " ".join(want.split()[1:3]) if want.startswith("R ") else "listing"


def write_cases(folder):
    os.makedirs(folder, exist_ok=True)
    faults, size = Counter(), 0
    for number, (data, want) in enumerate(stored_cases(), 1):
        for name, content in ((f"{number:03}.hour", data), (f"{number:03}.want", want.encode())):
            with open(os.path.join(folder, name), "wb") as file:
                file.write(content)
            size += len(content)
        faults[fault_of(want)] += 1
    print(f"{sum(faults.values())} cases, {size} bytes")
    print("".join(f"{count:5} {name}\n" for name, count in sorted(faults.items())), end="")
    return set(FAULTS) <= set(faults)


def main():
    if len(sys.argv) != 2:
        sys.exit("usage: file_cases.py FOLDER")
    sys.exit(0 if write_cases(sys.argv[1]) else "a fault is missing")


if __name__ == "__main__":
    main()
