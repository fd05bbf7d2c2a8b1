#!/usr/bin/env python3
"""What the program hour_cases must print, by the second calculation of hour.py alone.

    python3 reference/cases.py > crates/hour_cases/stdout

Fixed cases come first: calls that are turned down, full tables, and books that are used again. Then come pseudo-random
hours, and lists of calls in whatever order. The program draws the same hours by the same numbers, in the same order.
With the argument `branches` this prints how often each branch of the rules occurs in the pseudo-random hours.
"""
import os
import sys
from collections import Counter

sys.dont_write_bytecode = True
sys.path.insert(0, os.path.dirname(os.path.abspath(__file__)))

import hour
import told_apart
from hour import (COMPETITIVE, GUARANTEED, MOST_KWH, MOST_PRICE, AddBuyer, AddCompetitive, AddGuaranteed, AddPlant, Commit,
                  Correct, Header, PriceRow, PutAside, ReadBuyer, ReadCompetitive, ReadGuaranteed, Refused, SteppedCost,
                  SteppedOffer, TakeBack, Tariff)

HOURS = 200
MIXED_HOURS = 30

# What is drawn for each field of a reading, in the order of docs/hour.md, and the most that such a field may be.
COMPETITIVE_FIELDS = ("energy half part part energy mark energy part part part part part day minute "
                      "gain penalty penalty").split()
GUARANTEED_FIELDS = "energy energy part part part part part day minute".split()
MOST = dict(energy=MOST_KWH, half=MOST_KWH, part=MOST_KWH, mark=1, day=400, minute=1_439, gain=100_000_000,
            penalty=100_000_000)


# Text ---------------------------------------------------------------------------------------------------------------

def answer_line(answer):
    if isinstance(answer, str):
        return f"{answer}\n"
    return f"R {answer.number}\n" if isinstance(answer, Refused) else f"{answer.number}\n"


def answer_lines(answers):
    return "".join(map(answer_line, answers))


def refusal_line(number):
    return "taken\n" if number is None else f"R {number}\n"


def question_lines(listing, numbers):
    """What a settled hour answers about each number: the plant, the buyer, and the unit of groups 0 to 3."""
    known = {}
    for line in listing.splitlines():
        words = line.split()
        known[tuple(words[:3 if words[0] == "U" else 2])] = line
    lines = []
    for number in map(str, numbers):
        lines.append(known.get(("P", number), "R 1"))
        lines.append(known.get(("B", number), "R 3"))
        lines += [known.get(("U", group, number), "R 2") for group in ("none", "C", "G", "none")]
    return "".join(f"{line}\n" for line in lines)


def hour_text(title, case, numbers=()):
    answers, figures = hour.settle_hour(**case)
    listing = hour.listing(figures)
    return f"{title}\n{answer_lines(answers)}{listing}{question_lines(listing, numbers)}"


# Fixed cases without an hour ----------------------------------------------------------------------------------------

def header_cases():
    most = (MOST_PRICE, 50_000, 1_000_000, MOST_PRICE, MOST_PRICE)
    headers = []
    for place in range(5):
        for value in (most[place], most[place] + 1):
            headers.append(Header(*(value if place == other else 0 for other in range(5))))
    headers += [Header(*most), Header(*(value + 1 for value in most))]
    return "case headers\n" + "".join(refusal_line(hour.header_refusal(header)) for header in headers)


# On both sides of each limit, and where 8 and 9 both apply: 8 is judged over the whole list first.
STEP_LISTS = (
    [], [(1, 5)], [(1, 5)] * 10, [(1, 5)] * 11, [(0, 5)], [(2_000_000, 5)], [(2_000_001, 5)], [(1, 10_000_000)],
    [(1, 10_000_001)], [(0, 10_000_001)], [(1, 10_000_001)] * 11,
    [(1, 5), (1, 5)], [(1, 5), (1, 4)], [(1, 20_000_000), (1, 15_000_000)], [(1, 10_000_001), (0, 10_000_001)],
)


def step_list_cases():
    lines = []
    for steps in STEP_LISTS:
        lines += [refusal_line(hour.steps_refusal(steps, True)), refusal_line(hour.steps_refusal(steps, False))]
    lines += [refusal_line(hour.rate_refusal(rate)) for rate in (0, 10_000_000, 10_000_001)]
    return "case step lists\n" + "".join(lines)


def priced_unit_cases():
    """Units that come with the outcome of making their rows. The refusals of the book come first."""
    def each_outcome(plant, gross, rho):
        return [AddCompetitive(plant, gross, rho, outcome) for outcome in (None, 8, 9)]

    entries = [AddPlant(0)] + each_outcome(1, 5, 0) + each_outcome(2, 5, 0) + each_outcome(1, 5, 2_001)
    entries += each_outcome(1, 2_000_001, 0) + [AddCompetitive(1, 5, 0)] * 126
    entries += each_outcome(1, 5, 0) + each_outcome(2, 5, 0)
    return "case units with their rows\n" + answer_lines(hour.judge_entries(entries)[0])


# How a refusal of a step list or a rate prints, after its number. Those of the book print with nothing behind it.
LIST_TEXTS = {8: ": not 1 to 10 steps, a width not 1 to 2000000, or a price that falls", 9: ": a price over 10000000"}


def refusal_text_cases():
    """Each refusal of the book and of a list; and each again, as that of a unit with its rows."""
    texts = [f"refused with {number}\n" for number in (1, 2, 3, 4, 5, 6, 7, 9, 10, 11)]
    texts += [f"refused with {number}{LIST_TEXTS[number]}\n" for number in (8, 9)]
    return "case refusal texts\n" + "".join(text * 2 for text in texts)


# Fixed hours --------------------------------------------------------------------------------------------------------

HEADER = Header(1_000, 10_000, 200, 30, 400)
OFFER = SteppedOffer([(100, 300), (100, 500)])
COST = SteppedCost([(100, 350)])


def fixed_hour(entries, readings, rows):
    """An hour with so many equal rows for each group."""
    return dict(header=HEADER, entries=entries, offers1=[OFFER] * rows, offers2=[Tariff(400)] * rows, readings=readings,
                rows1=[PriceRow(OFFER, COST)] * rows, rows2=[Tariff(400)] * rows)


def before_the_first_rows():
    return [AddCompetitive(1, 5, 0), AddGuaranteed(1, 5, 5, 0, 0), Correct(1, 1, 5), Correct(2, 1, 5), PutAside(1, 1),
            PutAside(2, 1), TakeBack(1, 1), TakeBack(2, 1), Commit(1, 1, 5), AddPlant(2_001), AddPlant(2_000),
            Commit(1, 1, 5), AddBuyer(2_001), AddBuyer(2_000)]


def units_at_their_limits():
    """New units on both sides of each limit. 4 competitive and 7 guaranteed ones are accepted."""
    competitive = [(0, 5, 0), (1, 5, 0), (2, 5, 0), (1, 5, 2_000), (1, 5, 2_001), (1, 0, 0), (1, 2_000_000, 0),
                   (1, 2_000_001, 0)]
    guaranteed = [(0, 5, 5, 0, 0), (1, 5, 5, 0, 0), (2, 5, 5, 0, 0), (1, 5, 5, 2_000, 0), (1, 5, 5, 2_001, 0),
                  (1, 0, 5, 0, 0), (1, 2_000_000, 5, 0, 0), (1, 2_000_001, 5, 0, 0), (1, 5, 0, 0, 0),
                  (1, 5, 2_000_000, 0, 0), (1, 5, 2_000_001, 0, 0), (1, 5, 5, 0, 1), (1, 5, 5, 0, 2)]
    return [AddCompetitive(*fields) for fields in competitive] + [AddGuaranteed(*fields) for fields in guaranteed]


def changes_at_their_limits():
    entries = []
    for group in (0, 1, 2, 3):
        for unit in (0, 1, 4, 5, 7, 8):
            entries += [Correct(group, unit, 6), PutAside(group, unit), TakeBack(group, unit)]
    for gross in (0, 2_000_000, 2_000_001, 40):
        entries += [Correct(1, 1, gross), Correct(2, 1, gross)]
    return entries


def commitments_at_their_limits():
    entries = [Commit(plant, 1, 1) for plant in (0, 1, 2)] + [Commit(1, buyer, 1) for buyer in (0, 2)]
    entries += [Commit(1, 1, volume) for volume in (0, 20_000_001, 19_999_998, 2, 1, 1, 20_000_001)]
    return entries + [AddPlant(0), Commit(2, 1, 20_000_000), AddBuyer(0), Commit(2, 2, 1)]


def entries_against_two_rows():
    return [Commit(0, 0, 0), Commit(3, 3, 1), Commit(1, 3, 0), AddCompetitive(3, 2_000_001, 2_001),
            AddCompetitive(1, 2_000_001, 2_001), AddGuaranteed(3, 5, 5, 2_001, 2),
            AddGuaranteed(1, 2_000_001, 5, 2_001, 2), AddGuaranteed(1, 5, 2_000_001, 0, 2), Correct(3, 1, 2_000_001),
            Correct(1, 5, 2_000_001)]


def readings_by_number():
    readings = []
    for number in (0, 1, 2, 3, 4, 5, 7, 8):
        readings += [ReadCompetitive(number), ReadGuaranteed(number), ReadBuyer(number)]
    return readings


def readings_at_their_limits():
    """Each field on both sides of its limit. The lost energy covers any UL energy."""
    readings = []
    for place, kind in enumerate(COMPETITIVE_FIELDS):
        for value in (MOST[kind], MOST[kind] + 1):
            fields = [0, 0, 2_000_000] + [0] * 14
            fields[place] = value
            readings.append(ReadCompetitive(1, *fields))
    for place, kind in enumerate(GUARANTEED_FIELDS):
        for value in (MOST[kind], MOST[kind] + 1):
            readings.append(ReadGuaranteed(1, *(value if place == other else 0 for other in range(9))))
    readings += [ReadCompetitive(1, accepted=5, lost=5, limited=10), ReadCompetitive(1, accepted=5, lost=5, limited=11),
                 ReadCompetitive(1, accepted=2_000_000, lost=2_000_000, limited=2_000_000)]
    return readings + [ReadBuyer(1, use) for use in (0, 50_000_001, 50_000_000)]


def readings_against_two_rows():
    return [ReadCompetitive(5, net=2_000_001), ReadCompetitive(1, net=2_000_001, planning=100_000_001),
            ReadCompetitive(1, limited=2_000_001), ReadCompetitive(1, alpha=2, opportunity=100_000_001),
            ReadCompetitive(1, limited=1, minute=1_440), ReadCompetitive(1, limited=1, noncooperation=100_000_001),
            ReadGuaranteed(8, day=401), ReadGuaranteed(1, p_act=2_000_001, day=401), ReadBuyer(3, 50_000_001)]


def last_readings():
    return [ReadCompetitive(1, net=130, accepted=110, limited=20, p_act=30), ReadGuaranteed(1, net=90, p_act=10),
            ReadBuyer(2, 7)]


def limits_hour():
    entries = (before_the_first_rows() + units_at_their_limits() + changes_at_their_limits()
               + commitments_at_their_limits() + entries_against_two_rows())
    readings = readings_by_number() + readings_at_their_limits() + readings_against_two_rows() + last_readings()
    return fixed_hour(entries, readings, 8)


def full_tables():
    """Rows past the last of each table."""
    entries = []
    for number in range(65):
        entries += [AddPlant(number * 30), AddBuyer(number * 30)]
    entries += [AddPlant(2_001), AddBuyer(2_001)]
    for number in range(129):
        entries.append(AddCompetitive(number % 32 + 1, number + 1, number * 15))
        entries.append(AddGuaranteed(number % 31 + 1, number + 1, number, number * 7, number % 2))
    entries += [AddCompetitive(33, 5, 0), AddCompetitive(1, 5, 2_001), AddCompetitive(1, 2_000_001, 0),
                AddGuaranteed(33, 5, 5, 0, 0), AddGuaranteed(1, 5, 5, 2_001, 0), AddGuaranteed(1, 5, 5, 0, 2)]
    entries += [Commit(number % 32 + 1, number % 63 + 1, number % 19 + 1) for number in range(769)]
    entries += [Commit(1, 1, 0), Commit(1, 65, 1), Commit(33, 1, 1), Commit(33, 65, 0)]
    return entries + [Correct(1, 128, 200), PutAside(2, 128), Correct(1, 129, 5), PutAside(2, 129), TakeBack(2, 129)]


def full_readings():
    """Readings of every unit and every buyer, and of those past the last."""
    readings = []
    for number in range(1, 130):
        readings.append(ReadCompetitive(number, net=2 * number, accepted=number, p_act=number % 7))
        readings.append(ReadGuaranteed(number, net=number, p_act=number % 5))
        readings.append(ReadBuyer(number, number))
    return readings


def small_entries():
    return [AddPlant(0), AddBuyer(0), AddCompetitive(1, 40, 0), AddGuaranteed(1, 30, 30, 0, 1), Commit(1, 1, 90)]


def small_hour(readings):
    return fixed_hour(small_entries(), readings, 1)


def units_without_rows():
    """One row for two units of each group, and net energies at their limit and over it, with a loss and without."""
    entries = [AddPlant(0), AddPlant(200), AddBuyer(0), AddCompetitive(1, 40, 0), AddCompetitive(1, 60, 0),
               AddGuaranteed(1, 30, 20, 0, 1), AddGuaranteed(2, 50, 50, 0, 1), Commit(1, 1, 70), Commit(2, 1, 15)]
    readings = [ReadCompetitive(1, net=MOST_KWH, accepted=100), ReadCompetitive(1, net=MOST_KWH + 1),
                ReadCompetitive(2, net=MOST_KWH), ReadCompetitive(3, net=MOST_KWH + 1), ReadGuaranteed(1, net=MOST_KWH),
                ReadGuaranteed(2, net=MOST_KWH), ReadGuaranteed(2, net=MOST_KWH + 1),
                ReadGuaranteed(3, net=MOST_KWH + 1), ReadBuyer(1, 7)]
    return fixed_hour(entries, readings, 1)


def hours_let_go():
    """An open and a closed hour are let go. What is entered and read then is in no later hour."""
    entered, calls = hour.judge_entries(small_entries())
    text = "case open hour let go\n" + answer_lines(entered) + hour_text("hour after it", small_hour([]))
    read, _ = hour.judge_readings(last_readings(), calls)
    return text + ("case closed hour let go\n" + answer_lines(entered + read)
                   + hour_text("hour after it", small_hour([])))


def told_apart_cases():
    """One group full and the other not, an hour with four different counts, and one with several orders of changes."""
    units = (told_apart.COMPETITIVE_UNIT, told_apart.GUARANTEED_UNIT)
    competitive, _ = hour.judge_entries(told_apart.full_group(*units))
    guaranteed, _ = hour.judge_entries(told_apart.full_group(*reversed(units)))
    return "".join((
        "case competitive units full\n" + answer_lines(competitive), "case guaranteed units full\n" + answer_lines(guaranteed),
        hour_text("case four counts", told_apart.four_counts(), range(9)),
        hour_text("case orders", told_apart.orders(), (0, 3, 4, 5, 6, 7))))


def fixed_cases():
    no_units = fixed_hour([AddPlant(0), AddBuyer(0), Commit(1, 1, 50)], [ReadBuyer(1, 7)], 0)
    return "".join((
        header_cases(), step_list_cases(), priced_unit_cases(), refusal_text_cases(),
        hour_text("case nothing entered", fixed_hour([], [], 0), (0, 1)),
        hour_text("case limits", limits_hour(), (0, 1, 2, 3, 4, 5, 7, 8, 2**32 - 1)),
        hour_text("case full tables", fixed_hour(full_tables(), full_readings(), 130), (1, 32, 33, 64, 65, 128, 129)),
        hour_text("case nothing entered again", fixed_hour([], [], 0), (0, 1)),
        hour_text("case plant without units", no_units),
        hour_text("case small hour", small_hour(last_readings())),
        hour_text("case nothing read", small_hour([])),
        hours_let_go(),
        told_apart_cases(),
        hour_text("case units without rows", units_without_rows(), (1, 2, 3))))


# Pseudo-random hours ------------------------------------------------------------------------------------------------

class Random:
    def __init__(self, seed):
        self.state = seed

    def below(self, bound):
        """A number below `bound`, and 0 where the bound is 0, for which nothing is drawn."""
        if bound == 0:
            return 0
        self.state = (self.state * 6364136223846793005 + 1442695040888963407) % 2**64
        return (self.state >> 33) % bound

    def one_of(self, numbers):
        return numbers[self.below(len(numbers))]

    def often_none(self, bound):
        """0 half of the time, else a number below `bound`."""
        return 0 if self.below(2) == 0 else self.below(bound)

    def one_up_to(self, count):
        """The number of one of `count` rows, and now and then 0."""
        return 0 if self.below(24) == 0 else self.below(max(count, 1)) + 1


SIZES = (0, 1, 1, 1, 1, 2, 2, 2, 2, 3, 3, 3, 3, 4, 4, 4)
PERCENTAGES = (0, 0, 0, 0, 0, 150, 150, 150, 300, 300, 300, 300, 1_234, 1_234, 1_999, 2_000, 2_000, 2_000, 2_000, 2_001)
BETAS = (0, 0, 0, 0, 0, 0, 0, 0, 0, 1, 1, 1, 1, 1, 1, 1, 1, 1, 1, 2)
GROUPS = (1, 1, 1, 1, 1, 1, 2, 2, 2, 2, 2, 2, 0, 3)


class Source:
    """Draws the calls and the rows of one hour."""

    def __init__(self, number):
        self.random = random = Random(number)
        large = number % 13 == 0
        energy = random.one_of((30, 160, 160, 400))
        self.energy = MOST_KWH + 1 if large else energy
        self.price = random.one_of((1, 100, 100, 1_250_000))
        self.gain = random.one_of((1, 60, 100_000_001))
        self.penalty = random.one_of((1, 1, 60, 100_000_001))
        self.rate = self.any_price()
        self.plants = random.one_of(SIZES)
        self.buyers = random.one_of(SIZES)
        self.competitive = random.below(3 if large else 7)
        self.guaranteed = random.below(3 if large else 7)

    def any_price(self):
        return self.random.below(9) * self.price

    def header(self):
        ceiling = self.random.one_of((0, 300, 1_000, 10_000_000))
        cpf = self.random.one_of((0, 9_000, 10_000, 50_000))
        bar = self.random.one_of((0, 200, 777, 1_000_000))
        saving = self.random.one_of((0, 30, 45, 10_000_000))
        return Header(ceiling, cpf, bar, saving, self.rate)

    # Entries

    def percentage(self):
        return self.random.one_of(PERCENTAGES)

    def gross(self):
        match self.random.below(30):
            case 0:
                return 0
            case 1:
                return 2_000_000
            case 2:
                return 2_000_001
            case _:
                return self.random.below(self.energy)

    def volume(self):
        match self.random.below(40):
            case 0:
                return 0
            case 1:
                return 19_999_990
            case 2:
                return 20_000_000
            case 3:
                return 20_000_001
            case _:
                return self.random.below(self.energy) + 1

    def add_plant(self):
        return AddPlant(self.percentage())

    def add_buyer(self):
        return AddBuyer(self.percentage())

    def add_competitive(self):
        plant = self.random.one_up_to(self.plants)
        gross = self.gross()
        rho = self.percentage()
        return AddCompetitive(plant, gross, rho)

    def add_guaranteed(self):
        plant = self.random.one_up_to(self.plants)
        gross = self.gross()
        seasonal = self.gross()
        rho = self.percentage()
        beta = self.random.one_of(BETAS)
        return AddGuaranteed(plant, gross, seasonal, rho, beta)

    def commit(self):
        plant = self.random.one_up_to(self.plants)
        buyer = self.random.one_up_to(self.buyers)
        volume = self.volume()
        return Commit(plant, buyer, volume)

    def change(self):
        group = self.random.one_of(GROUPS)
        unit = self.random.one_up_to(self.guaranteed if group == GUARANTEED else self.competitive)
        match self.random.below(8):
            case 0 | 1 | 2:
                return Correct(group, unit, self.gross())
            case 3 | 4:
                return PutAside(group, unit)
            case 5:
                return TakeBack(group, unit)
            case 6:
                return self.add_competitive()
            case _:
                return self.add_guaranteed()

    def entries(self):
        entries = [self.add_plant() for _ in range(self.plants)]
        entries += [self.add_buyer() for _ in range(self.buyers)]
        entries += [self.add_competitive() for _ in range(self.competitive)]
        entries += [self.add_guaranteed() for _ in range(self.guaranteed)]
        entries += [self.commit() for _ in range(self.random.below(11))]
        return entries + [self.change() for _ in range(self.random.below(9))]

    # Readings

    def field(self, kind):
        match kind:
            case "energy":
                return self.random.below(self.energy)
            case "half":
                return self.random.below(self.energy // 2)
            case "part":
                return self.random.often_none(self.energy // 8)
            case "mark":
                return self.random.below(2)
            case "day":
                return self.random.below(4)
            case "minute":
                return self.random.one_of((0, 779, 780, 781, 1_439))
            case "gain":
                return self.random.often_none(self.gain)
            case "penalty":
                return self.random.often_none(self.penalty)

    def fields(self, kinds):
        """The fields of a reading; one in twelve has a field over its limit."""
        fields = [self.field(kind) for kind in kinds]
        if self.random.below(12) == 0:
            place = self.random.below(len(kinds))
            fields[place] = MOST[kinds[place]] + 1
        return fields

    def read_competitive(self, unit):
        return ReadCompetitive(unit, *self.fields(COMPETITIVE_FIELDS))

    def read_guaranteed(self, unit):
        return ReadGuaranteed(unit, *self.fields(GUARANTEED_FIELDS))

    def read_buyer(self, buyer):
        match self.random.below(12):
            case 0 | 1 | 2 | 3:
                return ReadBuyer(buyer, 0)
            case 4:
                return ReadBuyer(buyer, 50_000_000)
            case 5:
                return ReadBuyer(buyer, 50_000_001)
            case _:
                return ReadBuyer(buyer, self.random.below(self.energy))

    def read_any(self):
        match self.random.below(3):
            case 0:
                return self.read_competitive(self.random.one_up_to(self.competitive + 1))
            case 1:
                return self.read_guaranteed(self.random.one_up_to(self.guaranteed + 1))
            case _:
                return self.read_buyer(self.random.one_up_to(self.buyers + 1))

    def readings(self):
        readings = []
        for read, count in ((self.read_competitive, self.competitive), (self.read_guaranteed, self.guaranteed),
                            (self.read_buyer, self.buyers)):
            for number in range(1, count + 1):
                if self.random.below(8) != 0:
                    readings.append(read(number))
        return readings + [self.read_any() for _ in range(self.random.below(5))]

    # Rows

    def row_count(self, units):
        """How many rows a group of so many units has: now and then too few, else enough for a late unit too."""
        match self.random.below(4):
            case 0:
                return self.random.below(units + 1)
            case 1:
                return units + 3
            case _:
                return units + 1

    def width(self):
        return self.random.below(self.energy // 3) + 1

    def stepped_offer(self):
        steps, level = [], self.random.below(3)
        for _ in range(self.random.below(4) + 1):
            steps.append((self.width(), level * self.price))
            level += self.random.below(3)
        return SteppedOffer(steps)

    def stepped_cost(self):
        steps = []
        for _ in range(self.random.below(4) + 1):
            width = self.width()
            steps.append((width, self.any_price()))
        return SteppedCost(steps)

    def tariff(self):
        return Tariff(self.rate if self.random.below(2) == 0 else self.any_price())

    def price_row(self):
        offer = self.stepped_offer()
        return PriceRow(offer, self.stepped_cost())

    def rows(self, draw, units):
        return [draw() for _ in range(self.row_count(units))]


def drawn_hour(number):
    """The arguments of `settle_hour` for one pseudo-random hour."""
    source = Source(number)
    closing, settling = ((source.tariff, source.tariff), (source.stepped_offer, source.stepped_offer),
                         (source.stepped_offer, source.tariff), (source.tariff, source.stepped_offer))[number % 4]
    header = source.header()
    entries = source.entries()
    offers1 = source.rows(source.stepped_offer, source.competitive)
    offers2 = source.rows(closing, source.guaranteed)
    readings = source.readings()
    rows1 = source.rows(source.price_row, source.competitive)
    rows2 = source.rows(settling, source.guaranteed)
    return dict(header=header, entries=entries, offers1=offers1, offers2=offers2, readings=readings, rows1=rows1,
                rows2=rows2)


def mixed_calls(number):
    """The calls of a drawn hour with others out of turn among them, and the state that they lead to. Every third list
    ends before settling, and every third before closing."""
    case = drawn_hour(number)
    entries, readings = case["entries"], case["readings"]
    close = hour.Close(case["offers1"], case["offers2"])
    settle = hour.Settle(case["rows1"], case["rows2"])
    opened = readings[:1] + entries + [settle]
    closed = [close] + entries[:1] + [hour.Close([], [])] + readings
    settled = [settle] + readings[:1] + [hour.Settle([], []), close] + entries[:1]
    state = ("settled", "closed", "open")[number % 3]
    return opened + {"open": [], "closed": closed, "settled": closed + settled}[state], state


def mixed_text(number):
    calls, state = mixed_calls(number)
    answers, figures = hour.make_calls(drawn_hour(number)["header"], calls)
    listing = hour.listing(figures) if figures else ""
    return f"mixed hour {number}\n{answer_lines(answers)}{state}\n{listing}"


# Branches -----------------------------------------------------------------------------------------------------------

def count_calls(counts, case, answers):
    for call, answer in zip(case["entries"] + case["readings"], answers):
        refused = isinstance(answer, Refused)
        counts["calls refused" if refused else "calls accepted"] += 1
        counts[type(call).__name__ + (f" R {answer.number}" if refused else " accepted")] += 1


def count_units(counts, case, calls, figures):
    offers = {COMPETITIVE: case["offers1"], GUARANTEED: case["offers2"]}
    rows = {COMPETITIVE: case["rows1"], GUARANTEED: case["rows2"]}
    for (group, unit), of in figures.units.items():
        added = hour.units_of(calls, group)[unit]
        aside = hour.is_aside(calls, group, unit)
        counts[f"unit of group {group}"] += 1
        counts["unit aside"] += aside
        counts["unit aside, with a bill"] += aside and of.bill > 0
        counts["unit without an offer"] += unit > len(offers[group])
        counts["unit without a price row, with a bill"] += unit > len(rows[group]) and of.bill > 0
        counts["unit corrected"] += hour.declared_gross(calls, group, unit) != added.gross
        if group == GUARANTEED:
            counts[f"β {added.beta}, with a payment"] += of.payment > 0


def count_payment(counts, case, of, row):
    """Counts the branches of what a competitive unit with a price row is paid."""
    parts, a, b = of.parts, of.parts.a, of.parts.b
    com_or_co = "Co" if of.allocated > parts.carried_com else "r(Com)"
    counts["a is " + ("the bill" if a == of.bill else com_or_co)] += 1
    counts[f"α {of.reading.alpha}"] += 1
    counts["b2 > b1" if parts.b2 > parts.b1 else "b2 <= b1"] += 1
    counts["b > a" if b > a else "b <= a"] += 1
    if b > a:
        by_cost, by_offer = parts.cost_of_b.cost, parts.offer_of_b.cost
        by = "the cost curve" if by_cost < by_offer else "the offer" if by_offer < by_cost else "both"
        counts[f"B by {by}"] += 1
    counts["A > 0" if not parts.raised else "A = 0, a > 0" if a else "A = 0, a = 0"] += 1
    if max(a, b) < of.bill:
        counts["C > 0 kWh by the raised cost" if parts.raised else "C > 0 kWh by the offer at Com"] += 1
        raised = max(row.cost.at(kwh) * 12 // 10 for kwh in (max(a, b) + 1, of.bill))
        counts["C reaches the ceiling"] += parts.raised and raised > case["header"].ceiling


def count_plants(counts, figures):
    hour_rate = -1 if figures.sums.quotient is None else figures.sums.quotient
    for plant, of in figures.plants.items():
        own = [unit for unit in figures.units.values() if unit.plant == plant]
        own_rate = -1 if of.own_quotient is None else of.own_quotient
        by = "the ceiling" if own_rate == hour_rate == -1 else "its quotient" if own_rate > hour_rate else "the hour's quotient"
        counts[f"rate by {by}" + (" alone" if by != "the ceiling" and -1 in (own_rate, hour_rate) else "")] += 1
        counts["rate capped"] += max(own_rate, hour_rate) > 1_000_000_000
        counts["rate with negative money read as 0"] += hour_rate == 0 and figures.sums.money < 0
        counts["plant with run support"] += of.run > 0
        counts["plant with day support"] += of.support > of.run
        counts["plant without units"] += not own
        counts["plant with shares of both groups"] += min(of.shares) > 0


def count_readings(counts, read):
    for (kind, _), reading in read.items():
        if kind is not ReadBuyer:
            mark = hour.maintenance_mark(reading.day, reading.minute)
            counts[f"mark {mark} with energy of type 6"] += reading.type6 > 0


def count_branches(counts, case, sums=hour.KWH_BY_KWH):
    answers, figures = hour.settle_hour(**case, sums=sums)
    count_calls(counts, case, answers)
    _, calls = hour.judge_entries(case["entries"])
    read, missing = hour.last_readings(calls, hour.judge_readings(case["readings"], calls)[1])
    counts["reading missing"] += len(missing)
    count_units(counts, case, calls, figures)
    for (group, unit), of in figures.units.items():
        if group == COMPETITIVE and unit <= len(case["rows1"]):
            count_payment(counts, case, of, case["rows1"][unit - 1])
    count_readings(counts, read)
    counts["hour with negative money"] += figures.sums.money < 0
    count_plants(counts, figures)
    for of in figures.buyers.values():
        counts["net purchase " + ("< 0" if of.net < 0 else "= 0" if of.net == 0 else "> 0")] += 1
    counts["hour with buyers, all weights 0"] += bool(figures.buyers) and not any(of.weight for of in figures.buyers.values())
    counts["hour with unassigned energy"] += figures.unassigned > 0


def branches():
    counts = Counter()
    for number in range(1, HOURS + 1):
        count_branches(counts, drawn_hour(number))
    return "".join(f"{count:5} {name}\n" for name, count in sorted(counts.items()))


def main():
    if sys.argv[1:] == ["branches"]:
        print(branches(), end="")
        return
    print(fixed_cases(), end="")
    for number in range(1, HOURS + 1):
        print(hour_text(f"hour {number}", drawn_hour(number)), end="")
    for number in range(1, MIXED_HOURS + 1):
        print(mixed_text(number), end="")


if __name__ == "__main__":
    main()
