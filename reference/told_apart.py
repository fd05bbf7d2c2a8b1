"""Hours in which mixed-up tables, numbers or orders change an answer, as the arguments of `settle_hour`.

`orders` has put aside, correct and take back in several orders, units of the same number in both groups, units and
buyers that are read again, a seasonal energy of 0, sums whose fractions come to a kWh more or less when they are
dropped singly, and a price that only the kWh Com has. `four_counts` has a different number of plants, competitive
units, guaranteed units and buyers, and calls that name each number; in turn each of the tables is the longest.
`full_group` fills one group and not the other.
"""
from hour import (AddBuyer, AddCompetitive, AddGuaranteed, AddPlant, Commit, Correct, Header, PriceRow, PutAside, ReadBuyer,
                  ReadCompetitive, ReadGuaranteed, SteppedCost, SteppedOffer, TakeBack, Tariff)

HEADER = Header(1_000, 10_000, 200, 30, 400)


# Orders -------------------------------------------------------------------------------------------------------------

def added():
    """Plants, buyers and units of both groups among each other: 3 plants, 4 buyers, 5 and 6 units."""
    return [AddBuyer(0), AddPlant(500), AddBuyer(1_000), AddPlant(1_000), AddBuyer(0), AddPlant(2_000), AddBuyer(500),
            AddGuaranteed(1, 45, 0, 0, 1), AddCompetitive(2, 90, 0), AddGuaranteed(1, 30, 20, 300, 0),
            AddCompetitive(1, 50, 100), AddGuaranteed(1, 40, 25, 0, 1), AddCompetitive(1, 70, 0),
            AddGuaranteed(2, 20, 20, 0, 0), AddCompetitive(1, 60, 0), AddGuaranteed(3, 8, 8, 2_000, 1),
            AddCompetitive(3, 8, 2_000), AddGuaranteed(1, 33, 33, 0, 0)]


def changed():
    """Changes after which unit 4 of group 1 and unit 6 of group 2 are aside."""
    return [PutAside(1, 1), Correct(1, 1, 50), TakeBack(1, 1), Correct(1, 2, 20), Correct(1, 2, 55), Correct(1, 3, 90),
            Correct(1, 3, 65), PutAside(1, 3), TakeBack(1, 3), PutAside(1, 4), Correct(1, 4, 80), PutAside(1, 4),
            PutAside(2, 4), TakeBack(2, 4), PutAside(1, 5), TakeBack(1, 5), TakeBack(1, 2), PutAside(2, 2),
            Correct(2, 2, 60), TakeBack(2, 2), PutAside(2, 3), TakeBack(2, 3), Correct(2, 3, 10), TakeBack(2, 6),
            Correct(2, 6, 50), PutAside(2, 6), Correct(1, 6, 5), PutAside(2, 7), Correct(1, 1, 2_000_001),
            Correct(3, 1, 5)]


def sold():
    return [Commit(1, 1, 60), Commit(1, 4, 40), Commit(2, 2, 30), Commit(2, 4, 26), Commit(3, 3, 12), Commit(4, 1, 5)]


def read_first():
    """Readings that later ones replace."""
    return [ReadGuaranteed(1, 50, 10), ReadBuyer(1, 100), ReadCompetitive(1, 70, 65, p_act=40, opportunity=3),
            ReadBuyer(2, 40), ReadGuaranteed(1, 20, 44), ReadBuyer(1, 60), ReadBuyer(4, 9),
            ReadCompetitive(1, 30, 20, p_act=41, opportunity=5)]


def read_last():
    return [ReadCompetitive(1, 100, 60, 20, 10, p_act=12, opportunity=1),
            ReadCompetitive(2, 60, 10, 30, 20, p_act=10, type6=30, day=1),
            ReadCompetitive(3, 50, 33, p_act=10), ReadCompetitive(4, 30, 14, 6, 10, p_act=5),
            ReadCompetitive(5, 20, executed=16, alpha=1), ReadGuaranteed(1, 30, 6),
            ReadGuaranteed(2, 10, 10, type6=10, day=2, minute=780), ReadGuaranteed(3, 10, 10), ReadGuaranteed(4, 7, 9),
            ReadGuaranteed(5, 8, 3), ReadGuaranteed(6, 10, 7), ReadBuyer(1, 80), ReadBuyer(2, 25), ReadBuyer(3, 33),
            ReadBuyer(4, 0)]


def turned_down():
    """Readings that are turned down, and so replace nothing."""
    return [ReadGuaranteed(1, 8, 4, day=401), ReadBuyer(1, 50_000_001), ReadCompetitive(3, 7, 2, limited=3),
            ReadBuyer(5, 9), ReadCompetitive(6, 1), ReadGuaranteed(7, 1)]


def price_rows():
    """Five price rows. By the first offer kWh 63, 69, 70, 71, 72 and 73 have a price of their own."""
    offers = [[(62, 100), (1, 110), (5, 120), (1, 130), (1, 140), (1, 150), (1, 160), (1, 170), (10, 180)],
              [(18, 300), (1, 400), (1, 500), (40, 600)], [(33, 200), (60, 490)], [(50, 100)], [(3, 300), (5, 450)]]
    costs = [[(100, 1_000)], [(30, 700), (30, 350)], [(40, 60), (60, 210)], [(50, 80)], [(10, 250)]]
    return [PriceRow(SteppedOffer(offer), SteppedCost(cost)) for offer, cost in zip(offers, costs)]


def orders():
    rows, tariffs = price_rows(), [Tariff(400)] * 6
    return dict(header=HEADER, entries=added() + changed() + sold(), offers1=[row.offer for row in rows],
                offers2=tariffs, readings=read_first() + read_last() + turned_down(), rows1=rows, rows2=tariffs)


# Four counts --------------------------------------------------------------------------------------------------------

def naming(number):
    """Calls that name a plant, a buyer and a unit of each group. Where the plant or the buyer is there, a later row
    turns the call down."""
    return [AddCompetitive(number, 5, 2_001), AddGuaranteed(number, 5, 5, 2_001, 0), Commit(number, 1, 0),
            Commit(1, number, 0), Correct(1, number, 40 + number), PutAside(1, number), TakeBack(1, number),
            PutAside(2, number), Correct(2, number, 60 + number), TakeBack(2, number)]


def naming_to(most):
    return [call for number in range(most + 1) for call in naming(number)]


def counted_entries():
    entries = [AddPlant(100 * number) for number in range(4)] + [AddBuyer(200 * number) for number in range(3)]
    entries += [AddCompetitive(4, 30, 100)] + [AddGuaranteed(3, 20, 25, 0, 1)] * 2 + naming_to(5)
    entries += [AddCompetitive(plant, 30, 200) for plant in (1, 2, 3, 4)] + naming_to(6)
    entries += [AddGuaranteed(plant, 20, 30, 300, 0) for plant in (1, 2, 3, 4)] + naming_to(7)
    entries += [AddBuyer(300 * number) for number in range(4)] + naming_to(8)
    return entries + [Commit(4, 7, 90), Commit(1, 5, 40), Commit(4, 4, 31), Commit(2, 6, 77)]


def counted_readings():
    """Readings of the numbers 0 to 8 in each table."""
    readings = []
    for number in range(9):
        readings.append(ReadCompetitive(number, 10 * number, 9 * number, p_act=number))
        readings.append(ReadGuaranteed(number, 11 * number, 2 * number))
        readings.append(ReadBuyer(number, 13 * number))
    return readings


def four_counts():
    offer = SteppedOffer([(100, 300), (100, 500)])
    row = PriceRow(offer, SteppedCost([(100, 350)]))
    return dict(header=HEADER, entries=counted_entries(), offers1=[offer] * 6, offers2=[Tariff(400)] * 6,
                readings=counted_readings(), rows1=[row] * 6, rows2=[Tariff(400)] * 6)


# One group full -----------------------------------------------------------------------------------------------------

COMPETITIVE_UNIT, GUARANTEED_UNIT = AddCompetitive(1, 5, 0), AddGuaranteed(1, 5, 5, 0, 0)


def full_group(one, other):
    """128 units of one group, one of the other, and then a further one of each."""
    return [AddPlant(0), AddPlant(0), AddPlant(0), AddBuyer(0)] + [one] * 128 + [other, one, other]
