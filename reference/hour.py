#!/usr/bin/env python3
"""One hour by a second calculation, kWh by kWh.

Follows docs/hour.md, docs/refusals.md, docs/settlement.md, docs/allocation.md, docs/price-curves.md and
docs/listing.md, and shares no code with the engine.

Every figure is derived from the list of accepted calls; nothing is kept between calls but that list. Each step hands
on the numbers that it went through, for explain.py to print.

Costs and splits are summed kWh by kWh. That takes minutes for an hour of full energies, so stretches.py sums them by
stretches of equal price. Which of the two is an argument of what closes and settles.

`settle_hour` judges the calls of one hour and gives the answers and the figures; `make_calls` takes any list of calls;
`listing` writes the figures as text.
Run without arguments it prints the listing of the worked hour.
"""
from collections import Counter
from collections.abc import Callable
from dataclasses import dataclass, field
from heapq import merge
from itertools import accumulate, groupby, islice

MOST_KWH = 2_000_000
MOST_PRICE = 10_000_000

MOST_PERCENTAGE = 2_000
MOST_VOLUME = 20_000_000
MOST_USE = 50_000_000
MOST_ADJUSTMENT = 100_000_000
MOST_STEPS = 10
MOST_RATE = 1_000_000_000

PLANTS, UNITS, BUYERS, COMMITMENTS = 32, 128, 64, 768

COMPETITIVE, GUARANTEED = 1, 2


# Curves -------------------------------------------------------------------------------------------------------------

def as_read(steps, count, lift):
    """The steps of a record as they are read: (last kWh, price) each, the last one without end.

    A count, a width or a price past a limit counts as that limit. The places behind the list hold width 0 and price 0.
    With `lift` a price under the one before it is read as that one.
    """
    places = (list(steps) + [(0, 0)] * MOST_STEPS)[:MOST_STEPS]
    count = len(steps) if count is None else count
    read, last, before = [], 0, 0
    for width, price in places[:min(max(count, 1), MOST_STEPS)]:
        last += min(max(width, 1), MOST_KWH)
        price = min(price, MOST_PRICE)
        if lift:
            price = max(price, before)
        before = price
        read.append((last, price))
    return read


class Curve:
    """A price for each kWh. A kind defines `at` for kWh 1 to 2,000,000."""

    def price(self, kwh):
        return self.at(min(max(kwh, 1), MOST_KWH))

    def runs(self, first, last):
        """The prices of kWh `first` to `last`, asked one by one, as (how many, the price of each)."""
        prices = map(self.at, range(first, min(last, MOST_KWH) + 1))
        return tuple((len(list(same)), price) for price, same in groupby(prices))


class Stepped(Curve):
    lift = False

    def __init__(self, steps, count=None):
        self.steps, self.count = tuple(steps), count
        self.read = as_read(self.steps, count, self.lift)

    def at(self, kwh):
        for last, price in self.read:
            if kwh <= last:
                return price
        return self.read[-1][1]

    def __repr__(self):
        return f"{type(self).__name__}({list(self.steps)!r}, {self.count!r})"


class SteppedOffer(Stepped):
    lift = True


class SteppedCost(Stepped):
    lift = False


@dataclass(frozen=True)
class Tariff(Curve):
    rate: int

    def at(self, kwh):
        return min(self.rate, MOST_PRICE)


@dataclass(frozen=True)
class Modified(Curve):
    free: int
    below: Curve

    def at(self, kwh):
        return 0 if kwh <= self.free else self.below.at(kwh)


@dataclass(frozen=True)
class Raised(Curve):
    ceiling: int
    below: Curve

    def at(self, kwh):
        return min(self.below.at(kwh) * 12 // 10, self.ceiling, MOST_PRICE)


@dataclass(frozen=True)
class PriceRow:
    """What settling takes for a competitive unit. For a guaranteed unit it takes the offer alone."""
    offer: Curve
    cost: Curve


# Calls and their answers --------------------------------------------------------------------------------------------

@dataclass(frozen=True)
class Breach:
    """A value that isn't from `least` to `most`. `name` is a field of the call, or says what was counted or added."""
    name: str
    value: int
    least: int
    most: int


@dataclass(frozen=True)
class Accepted:
    number: int


@dataclass(frozen=True)
class Refused:
    """`breaches` are the values that the row of that number found. Two refusals with one number are the same."""
    number: int
    breaches: tuple = field(default=(), compare=False)


@dataclass(frozen=True)
class Header:
    ceiling: int
    cpf: int
    bar: int
    saving: int
    rate: int


@dataclass(frozen=True)
class AddPlant:
    loss: int


@dataclass(frozen=True)
class AddCompetitive:
    """`outcome` is the refusal of making the unit's rows (8 or 9), or None where they were made or are not part of
    the entry. `breaches` are the values of their lists that it found."""
    plant: int
    gross: int
    rho: int
    outcome: int | None = None
    breaches: tuple = field(default=(), compare=False)


@dataclass(frozen=True)
class AddGuaranteed:
    plant: int
    gross: int
    seasonal: int
    rho: int
    beta: int


@dataclass(frozen=True)
class Correct:
    group: int
    unit: int
    gross: int


@dataclass(frozen=True)
class PutAside:
    group: int
    unit: int


@dataclass(frozen=True)
class TakeBack:
    group: int
    unit: int


@dataclass(frozen=True)
class AddBuyer:
    loss: int


@dataclass(frozen=True)
class Commit:
    plant: int
    buyer: int
    volume: int


@dataclass(frozen=True)
class ReadCompetitive:
    """The unit, and then the 17 fields in their order."""
    unit: int
    net: int = 0
    accepted: int = 0
    lost: int = 0
    limited: int = 0
    executed: int = 0
    alpha: int = 0
    p_act: int = 0
    type2: int = 0
    type3: int = 0
    type5: int = 0
    type6: int = 0
    type8: int = 0
    day: int = 0
    minute: int = 0
    opportunity: int = 0
    planning: int = 0
    noncooperation: int = 0


@dataclass(frozen=True)
class ReadGuaranteed:
    """The unit, and then the 9 fields in their order."""
    unit: int
    net: int = 0
    p_act: int = 0
    type2: int = 0
    type3: int = 0
    type5: int = 0
    type6: int = 0
    type8: int = 0
    day: int = 0
    minute: int = 0


@dataclass(frozen=True)
class ReadBuyer:
    buyer: int
    use: int = 0


@dataclass(frozen=True)
class Close:
    offers1: list
    offers2: list


@dataclass(frozen=True)
class Settle:
    rows1: list
    rows2: list


# What the accepted entries say --------------------------------------------------------------------------------------

ADDS = {COMPETITIVE: AddCompetitive, GUARANTEED: AddGuaranteed}
READS = {COMPETITIVE: ReadCompetitive, GUARANTEED: ReadGuaranteed}


def of_kind(calls, kind):
    return [call for call in calls if isinstance(call, kind)]


def numbered(calls, kind):
    """The accepted calls of a kind by the number that they answered."""
    return dict(enumerate(of_kind(calls, kind), 1))


def units_of(calls, group):
    return numbered(calls, ADDS[group])


def declared_gross(calls, group, unit):
    """By the last accepted correction of the unit, else as it was added."""
    gross = units_of(calls, group)[unit].gross
    for call in of_kind(calls, Correct):
        if (call.group, call.unit) == (group, unit):
            gross = call.gross
    return gross


def is_aside(calls, group, unit):
    """Whether it was put aside and not taken back since."""
    aside = False
    for call in of_kind(calls, (PutAside, TakeBack)):
        if (call.group, call.unit) == (group, unit):
            aside = isinstance(call, PutAside)
    return aside


def volumes_of_plant(calls, plant):
    return tuple(call.volume for call in of_kind(calls, Commit) if call.plant == plant)


def volumes_of_buyer(calls, buyer):
    return tuple(call.volume for call in of_kind(calls, Commit) if call.buyer == buyer)


# What turns a call down ---------------------------------------------------------------------------------------------

# A row is its number and the breaches that it finds, a tuple, or None where it doesn't apply.

def outside(name, value, least, most):
    return None if least <= value <= most else (Breach(name, value, least, most),)


def over(call, most, *names):
    """The fields of these names that are over their limit."""
    return tuple(Breach(name, getattr(call, name), 0, most) for name in names if getattr(call, name) > most) or None


def any_of(*found):
    return tuple(breach for breaches in found for breach in breaches or ()) or None


def rows_of_header(header):
    yield 9, any_of(over(header, MOST_PRICE, "ceiling"), over(header, 50_000, "cpf"), over(header, 1_000_000, "bar"),
                    over(header, MOST_PRICE, "saving", "rate"))


def no_plant(calls, plant):
    return outside("plant", plant, 1, len(numbered(calls, AddPlant)))


def no_unit(calls, group, unit):
    if group not in ADDS:
        return outside("group", group, COMPETITIVE, GUARANTEED)
    return outside("unit", unit, 1, len(units_of(calls, group)))


def no_buyer(calls, buyer):
    return outside("buyer", buyer, 1, len(numbered(calls, AddBuyer)))


def full(calls, kind, room):
    return outside("number", len(of_kind(calls, kind)) + 1, 1, room)


def outcome_is(call, number):
    """For a unit that comes with the outcome of making its rows."""
    return call.breaches if call.outcome == number else None


def rows_of_entry(call, calls):
    match call:
        case AddPlant():
            yield 4, full(calls, AddPlant, PLANTS)
            yield 5, over(call, MOST_PERCENTAGE, "loss")
        case AddCompetitive():
            yield 1, no_plant(calls, call.plant)
            yield 4, full(calls, AddCompetitive, UNITS)
            yield 5, over(call, MOST_PERCENTAGE, "rho")
            yield 6, over(call, MOST_KWH, "gross")
            yield 8, outcome_is(call, 8)
            yield 9, outcome_is(call, 9)
        case AddGuaranteed():
            yield 1, no_plant(calls, call.plant)
            yield 4, full(calls, AddGuaranteed, UNITS)
            yield 5, over(call, MOST_PERCENTAGE, "rho")
            yield 6, over(call, MOST_KWH, "gross", "seasonal")
            yield 10, over(call, 1, "beta")
        case Correct():
            yield 2, no_unit(calls, call.group, call.unit)
            yield 6, over(call, MOST_KWH, "gross")
        case PutAside() | TakeBack():
            yield 2, no_unit(calls, call.group, call.unit)
        case AddBuyer():
            yield 4, full(calls, AddBuyer, BUYERS)
            yield 5, over(call, MOST_PERCENTAGE, "loss")
        case Commit():
            yield 1, no_plant(calls, call.plant)
            yield 3, no_buyer(calls, call.buyer)
            yield 4, full(calls, Commit, COMMITMENTS)
            yield 6, outside("volume", call.volume, 1, MOST_VOLUME)
            yield 7, outside("sold", sum(volumes_of_plant(calls, call.plant)) + call.volume, 0, MOST_VOLUME)
        case _:
            raise TypeError(f"no call of an hour: {call!r}")


def rows_of_reading(call, calls):
    match call:
        case ReadCompetitive():
            yield 2, no_unit(calls, COMPETITIVE, call.unit)
            yield 6, over(call, MOST_KWH, "net", "accepted", "lost", "limited", "executed", "p_act",
                          "type2", "type3", "type5", "type6", "type8")
            yield 9, over(call, MOST_ADJUSTMENT, "opportunity", "planning", "noncooperation")
            yield 10, any_of(over(call, 1, "alpha"), over(call, 400, "day"), over(call, 1_439, "minute"))
            yield 11, over(call, call.accepted + call.lost, "limited")
        case ReadGuaranteed():
            yield 2, no_unit(calls, GUARANTEED, call.unit)
            yield 6, over(call, MOST_KWH, "net", "p_act", "type2", "type3", "type5", "type6", "type8")
            yield 10, any_of(over(call, 400, "day"), over(call, 1_439, "minute"))
        case ReadBuyer():
            yield 3, no_buyer(calls, call.buyer)
            yield 6, over(call, MOST_USE, "use")


def rows_of(call, calls):
    """The rows that can turn `call` down after the accepted entries `calls`, in the order of their checks."""
    is_reading = isinstance(call, (ReadCompetitive, ReadGuaranteed, ReadBuyer))
    return rows_of_reading(call, calls) if is_reading else rows_of_entry(call, calls)


def widths_outside(steps, of):
    return any_of(*(outside(f"width of step {number} of the {of}", width, 1, MOST_KWH)
                    for number, (width, _) in enumerate(steps, 1)))


def prices_under(steps, of):
    """The prices that are under the one before them."""
    return tuple(Breach(f"price of step {number} of the {of}", price, before, MOST_PRICE)
                 for number, ((_, before), (_, price)) in enumerate(zip(steps, steps[1:]), 2) if price < before)


def prices_over(steps, of):
    return any_of(*(outside(f"price of step {number} of the {of}", price, 0, MOST_PRICE)
                    for number, (_, price) in enumerate(steps, 1)))


def rows_of_steps(steps, offer):
    """The rows that can turn down the making of a stepped offer, or of a stepped cost."""
    of = "offer" if offer else "cost curve"
    yield 8, any_of(outside(f"number of steps of the {of}", len(steps), 1, MOST_STEPS), widths_outside(steps, of),
                    prices_under(steps, of) if offer else ())
    yield 9, prices_over(steps, of)


def rows_of_lists(offer_steps, cost_steps):
    """The rows of making a competitive unit's two rows: 8 in either list before 9 in either."""
    for (number, in_offer), (_, in_cost) in zip(rows_of_steps(offer_steps, True), rows_of_steps(cost_steps, False)):
        yield number, any_of(in_offer, in_cost)


def refusal(rows):
    """By the first row that applies, or None."""
    return next((Refused(number, breaches) for number, breaches in rows if breaches is not None), None)


def number_of(refused):
    return refused.number if refused else None


def header_refusal(header):
    return number_of(refusal(rows_of_header(header)))


def steps_refusal(steps, offer):
    """8, 9 or None."""
    return number_of(refusal(rows_of_steps(steps, offer)))


def rate_refusal(rate):
    return 9 if rate > MOST_PRICE else None


def rows_refusal(offer_steps, cost_steps):
    """8, 9 or None."""
    return number_of(refusal(rows_of_lists(offer_steps, cost_steps)))


def number_answered(call, calls):
    """The number of the row that an accepted call makes or changes, after the accepted entries `calls`."""
    match call:
        case Correct() | PutAside() | TakeBack() | ReadCompetitive() | ReadGuaranteed():
            return call.unit
        case ReadBuyer():
            return call.buyer
        case _:
            return len(of_kind(calls, type(call))) + 1


def judge(call, calls):
    return refusal(rows_of(call, calls)) or Accepted(number_answered(call, calls))


def judge_entries(entries):
    """The answers, and the accepted entries."""
    answers, accepted = [], []
    for call in entries:
        answer = judge(call, accepted)
        answers.append(answer)
        if isinstance(answer, Accepted):
            accepted.append(call)
    return answers, accepted


def judge_readings(readings, calls):
    """The answers, and the accepted readings."""
    answers = [judge(reading, calls) for reading in readings]
    return answers, [reading for reading, answer in zip(readings, answers) if isinstance(answer, Accepted)]


# Closing ------------------------------------------------------------------------------------------------------------

def limit_of(gross, rho, loss):
    return gross * (10_000 - rho) * (10_000 - loss) // 100_000_000


def group_shares(total, declared1, declared2):
    first = total if declared1 + declared2 == 0 else total * declared1 // (declared1 + declared2)
    return first, total - first


@dataclass(frozen=True)
class Split:
    """Of a share, by unit: the amounts, and the kWh that they are, as (how many, the price of each) by rising price.
    `dearest` is the price of the dearest kWh that was taken, or None where none was."""
    amounts: dict
    taken: dict
    dearest: int | None
    uncovered: int


def split_of(share, limits, kwh):
    """`kwh` counts the kWh that were taken, by unit and price; a unit's prices stand in rising order."""
    taken = {unit: tuple((count, price) for (its, price), count in kwh.items() if its == unit) for unit in limits}
    amounts = {unit: sum(count for count, _ in runs) for unit, runs in taken.items()}
    return Split(amounts, taken, max((price for _, price in kwh), default=None), share - sum(amounts.values()))


def kwh_in_order(unit, limit, offer):
    """A unit's kWh within its limit as (price, unit, place). An offer's price never falls, so they rise."""
    return ((offer.at(place), unit, place) for place in range(1, limit + 1))


def split(share, limits, offers):
    """Splits a share over a group's units, kWh after kWh in merit order. Limits and offers go by the unit's number."""
    in_order = merge(*(kwh_in_order(unit, limit, offers[unit]) for unit, limit in limits.items()))
    return split_of(share, limits, Counter((unit, price) for price, unit, _ in islice(in_order, share)))


@dataclass(frozen=True)
class Priced:
    """The kWh `first` to `last` by a curve, in runs of equal price as (how many, the price of each). There are none
    where `last` is before `first`."""
    first: int
    last: int
    runs: tuple

    @property
    def cost(self):
        return sum(kwh * price for kwh, price in self.runs)


@dataclass(frozen=True)
class Sums:
    """How kWh are priced and a share is split: `runs` takes a curve and its first and last kWh, `split` a share and a
    group's limits and offers by unit."""
    runs: Callable
    split: Callable

    def priced(self, curve, first, last):
        return Priced(first, last, self.runs(curve, first, last))


KWH_BY_KWH = Sums(Curve.runs, split)


@dataclass(frozen=True)
class ClosedUnit:
    """`gross` is the energy that the limit rests on."""
    plant: int
    counts: bool
    declared: int
    gross: int
    limit: int


@dataclass(frozen=True)
class ClosedPlant:
    """The pairs are by group."""
    volumes: tuple
    sold: int
    declared: tuple
    shares: tuple
    splits: tuple
    run: int


@dataclass(frozen=True)
class Closed:
    """What closing derives: the units by (group, unit), the plants by number."""
    units: dict
    plants: dict

    def split_with(self, group, unit):
        """That of the unit's own group."""
        return self.plants[self.units[group, unit].plant].splits[group - 1]

    def amount(self, group, unit):
        """Co of a unit. One that doesn't count is in no split."""
        return self.split_with(group, unit).amounts.get(unit, 0)


def close_unit(calls, group, unit, offered):
    call = units_of(calls, group)[unit]
    declared = declared_gross(calls, group, unit)
    gross = declared if group == COMPETITIVE else call.seasonal
    counts = offered and not is_aside(calls, group, unit)
    loss = numbered(calls, AddPlant)[call.plant].loss
    return ClosedUnit(call.plant, counts, declared, gross, limit_of(gross, call.rho, loss) if counts else 0)


def close_plant(calls, plant, units, offers, sums):
    counting = {group: {unit: of for (its_group, unit), of in units.items()
                        if its_group == group and of.plant == plant and of.counts} for group in ADDS}
    volumes = volumes_of_plant(calls, plant)
    declared = tuple(sum(of.declared for of in counting[group].values()) for group in ADDS)
    shares = group_shares(sum(volumes), *declared)
    splits = tuple(sums.split(share, {unit: of.limit for unit, of in counting[group].items()}, offers[group])
                   for group, share in zip(ADDS, shares))
    return ClosedPlant(volumes, sum(volumes), declared, shares, splits, sum(of.uncovered for of in splits))


def close_hour(calls, offers1, offers2, sums=KWH_BY_KWH):
    offers = {COMPETITIVE: dict(enumerate(offers1, 1)), GUARANTEED: dict(enumerate(offers2, 1))}
    units = {(group, unit): close_unit(calls, group, unit, unit in offers[group])
             for group in ADDS for unit in units_of(calls, group)}
    return Closed(units, {plant: close_plant(calls, plant, units, offers, sums) for plant in numbered(calls, AddPlant)})


# What a unit is paid ------------------------------------------------------------------------------------------------

def carried(energy, loss):
    """Energy carried to the reference point."""
    return energy * (10_000 - loss) // 10_000


@dataclass(frozen=True)
class CompetitiveParts:
    """What a competitive unit is paid, with the letters of docs/settlement.md.

    Of what is read, carried to the reference point: `carried_com` is r(Com), `carried_accepted` r(accepted + lost) and
    `carried_executed` the executed energy. `cost_of_b` and `offer_of_b` are the kWh of B by the cost curve and by the
    modified offer. `rest` has the curve that C is priced by, and `raised` says whether it is the raised cost curve.
    """
    com: int
    carried_com: int
    a: int
    carried_accepted: int
    b1: int
    carried_executed: int
    b2: int
    b: int
    part_a: Priced
    cost_of_b: Priced
    offer_of_b: Priced
    part_b: int
    raised: bool
    rest: Curve
    part_c: Priced

    @property
    def costs(self):
        """A, B and C."""
        return self.part_a.cost, self.part_b, self.part_c.cost

    @property
    def payment(self):
        return sum(self.costs)


def competitive_parts(reading, bill, amount, rho, loss, ceiling, row, sums=KWH_BY_KWH):
    com = reading.accepted + reading.lost - reading.limited
    carried_com, carried_accepted = carried(com, loss), carried(reading.accepted + reading.lost, loss)
    carried_executed = limit_of(reading.executed, rho, loss)
    a = min(max(carried_com, amount), bill)
    b1 = min(carried_accepted, bill)
    b2 = reading.alpha * min(carried_executed, bill)
    b = max(b1, b2)
    offer = Modified(amount, row.offer)
    part_a = sums.priced(offer, 1, a)
    cost_of_b, offer_of_b = sums.priced(row.cost, a + 1, b), sums.priced(offer, a + 1, b)
    part_b = 0 if b <= a else min(cost_of_b.cost, offer_of_b.cost)
    raised = part_a.cost == 0
    rest = Raised(ceiling, row.cost) if raised else Tariff(offer.price(com))
    part_c = sums.priced(rest, max(a, b) + 1, bill)
    return CompetitiveParts(com, carried_com, a, carried_accepted, b1, carried_executed, b2, b, part_a, cost_of_b,
                            offer_of_b, part_b, raised, rest, part_c)


@dataclass(frozen=True)
class GuaranteedParts:
    """Both terms of a guaranteed unit's payment: its bill by the offer, and the transmission saved."""
    by_offer: Priced
    saved: int

    @property
    def payment(self):
        return self.by_offer.cost + self.saved


def guaranteed_parts(bill, beta, saving, offer, sums=KWH_BY_KWH):
    return GuaranteedParts(sums.priced(offer, 1, bill), bill * beta * saving)


# Support ------------------------------------------------------------------------------------------------------------

def maintenance_mark(day, minute):
    return 1 if day == 1 or (day == 2 and minute > 780) else 0


@dataclass(frozen=True)
class ActiveEnergy:
    """A unit's active energy: `terms` are P_Act, the deviations of types 2, 3, 5 and 8, and what counts of type 6."""
    mark: int
    terms: tuple

    @property
    def total(self):
        return sum(self.terms)


def active_energy(reading):
    mark = maintenance_mark(reading.day, reading.minute)
    type6 = 0 if mark else reading.type6
    return ActiveEnergy(mark, (reading.p_act, reading.type2, reading.type3, reading.type5, reading.type8, type6))


def day_support(allocated, carried_active):
    return max(0, allocated - carried_active)


def quotient(money, energy):
    """Money for each kWh; negative money is read as 0. None where the energy is not positive."""
    return max(0, money) // energy if energy > 0 else None


def support_rate(own, of_hour, ceiling):
    """By a plant's own quotient and the hour's; either may be None."""
    counted = [found for found in (own, of_hour) if found is not None]
    return min(max(counted), MOST_RATE) if counted else ceiling


@dataclass(frozen=True)
class SupportCost:
    at_rate: int
    readiness: int

    @property
    def total(self):
        return self.at_rate + self.readiness


def support_cost(run, day, rate, cpf, bar, loss):
    return SupportCost((run + day) * rate, run * cpf * bar // (10_000 - loss))


# Buyers -------------------------------------------------------------------------------------------------------------

def weight_of(use, loss):
    return use * (10_000 + loss) // 10_000


@dataclass(frozen=True)
class BuyerShares:
    """Of all billed energy. `sums` are W(0) to W(n), and `upto` the shares of buyers 1 to 0, 1 to 1, up to 1 to n
    together."""
    sums: list
    upto: list
    shares: list
    unassigned: int


def buyer_shares(billed, weights):
    """By the buyers' weights, in their order."""
    sums = list(accumulate(weights, initial=0))
    total = sums[-1]
    upto = [billed * weight // total if total else 0 for weight in sums]
    shares = [later - earlier for earlier, later in zip(upto, upto[1:])]
    return BuyerShares(sums, upto, shares, billed if total == 0 else 0)


# Settling -----------------------------------------------------------------------------------------------------------

def last_readings(calls, readings):
    """The reading that counts for each unit of each group and each buyer, and the list of those without one."""
    blank = [ReadCompetitive(unit) for unit in units_of(calls, COMPETITIVE)]
    blank += [ReadGuaranteed(unit) for unit in units_of(calls, GUARANTEED)]
    blank += [ReadBuyer(buyer) for buyer in numbered(calls, AddBuyer)]

    def key(reading):
        return type(reading), reading.buyer if isinstance(reading, ReadBuyer) else reading.unit

    counts = {key(reading): reading for reading in blank + list(readings)}
    read = {key(reading) for reading in readings}
    return counts, [key(reading) for reading in blank if key(reading) not in read]


@dataclass
class UnitFigures:
    """`parts` are those of the payment, or None for a unit without a price row."""
    plant: int
    limit: int
    allocated: int
    bill: int
    payment: int
    reading: ReadCompetitive | ReadGuaranteed
    parts: CompetitiveParts | GuaranteedParts | None
    active: ActiveEnergy


@dataclass
class PlantFigures:
    """`active` is S, `payments` E, `over_allocated` F and `own_quotient` [E / F] or None."""
    sold: int
    shares: tuple
    allocated: int
    run: int
    support: int
    rate: int
    cost: int
    active: int
    carried_active: int
    day: int
    payments: int
    over_allocated: int
    own_quotient: int | None
    cost_parts: SupportCost


@dataclass
class BuyerFigures:
    """`weight_upto` is the sum of the weights up to the buyer's, `share_upto` the share of these buyers together."""
    bought: int
    weight: int
    share: int
    net: int
    volumes: tuple
    use: int
    weight_upto: int
    share_upto: int


@dataclass
class HourSums:
    """The adjustments are in rial. `money` is C as it is summed, `over_sold` D and `quotient` [C / D] or None."""
    payments: int
    opportunity: int
    planning: int
    noncooperation: int
    money: int
    over_sold: int
    quotient: int | None


@dataclass
class Figures:
    """The units are kept by (group, number), plants and buyers by number; `missing` names (kind, number). `all_weights`
    is W, and `netted` all net purchases and the unassigned energy together."""
    units: dict
    plants: dict
    buyers: dict
    billed: int
    sold: int
    unassigned: int
    missing: list
    all_weights: int
    netted: int
    sums: HourSums
    closed: Closed


def settle_unit(header, calls, closed, key, reading, row, sums):
    group, unit = key
    call = units_of(calls, group)[unit]
    loss, amount = numbered(calls, AddPlant)[call.plant].loss, closed.amount(group, unit)
    bill = carried(reading.net, loss)
    if row is None:
        parts = None
    elif group == COMPETITIVE:
        parts = competitive_parts(reading, bill, amount, call.rho, loss, header.ceiling, row, sums)
    else:
        parts = guaranteed_parts(bill, call.beta, header.saving, row, sums)
    payment = parts.payment if parts else 0
    limit, active = closed.units[key].limit, active_energy(reading)
    return UnitFigures(call.plant, limit, amount, bill, payment, reading, parts, active)


def hour_sums(units, billed, sold):
    readings = [of.reading for of in units.values() if isinstance(of.reading, ReadCompetitive)]
    payments = sum(of.payment for of in units.values())
    opportunity = sum(reading.opportunity for reading in readings)
    planning = sum(reading.planning for reading in readings)
    noncooperation = sum(reading.noncooperation for reading in readings)
    money = payments + 1_000 * (opportunity - planning - noncooperation)
    over_sold = billed - sold
    return HourSums(payments, opportunity, planning, noncooperation, money, over_sold, quotient(money, over_sold))


def settle_plant(header, loss, closed, own, of_hour):
    """By what closing derived of the plant, the figures of its own units, and the hour's quotient."""
    allocated = sum(of.allocated for of in own)
    active = sum(of.active.total for of in own)
    carried_active = carried(active, loss)
    day = day_support(allocated, carried_active)
    payments, over_allocated = sum(of.payment for of in own), sum(of.bill for of in own) - allocated
    own_quotient = quotient(payments, over_allocated)
    rate = support_rate(own_quotient, of_hour, header.ceiling)
    cost = support_cost(closed.run, day, rate, header.cpf, header.bar, loss)
    return PlantFigures(closed.sold, closed.shares, allocated, closed.run, closed.run + day, rate, cost.total, active,
                        carried_active, day, payments, over_allocated, own_quotient, cost)


def settle_buyers(calls, uses, billed):
    """The buyers' figures by number, from their uses and all billed energy; and how that is shared."""
    buyers = numbered(calls, AddBuyer)
    weights = {buyer: weight_of(uses[buyer], added.loss) for buyer, added in buyers.items()}
    found = buyer_shares(billed, list(weights.values()))
    figures = {}
    for buyer, share in zip(buyers, found.shares):
        volumes = volumes_of_buyer(calls, buyer)
        bought = sum(volumes)
        figures[buyer] = BuyerFigures(bought, weights[buyer], share, share - bought, volumes, uses[buyer],
                                      found.sums[buyer], found.upto[buyer])
    return figures, found


def settle_closed(header, calls, closed, readings, rows1, rows2, sums=KWH_BY_KWH):
    """The figures, from the accepted entries, what closing derived, the accepted readings and the price rows."""
    rows = {COMPETITIVE: dict(enumerate(rows1, 1)), GUARANTEED: dict(enumerate(rows2, 1))}
    counts, missing = last_readings(calls, readings)
    units = {}
    for group, unit in closed.units:
        reading = counts[READS[group], unit]
        row = rows[group].get(unit)
        units[group, unit] = settle_unit(header, calls, closed, (group, unit), reading, row, sums)
    billed = sum(of.bill for of in units.values())
    sold = sum(of.sold for of in closed.plants.values())
    of_hour = hour_sums(units, billed, sold)
    plants = {}
    for plant, added in numbered(calls, AddPlant).items():
        own = [of for of in units.values() if of.plant == plant]
        plants[plant] = settle_plant(header, added.loss, closed.plants[plant], own, of_hour.quotient)
    uses = {buyer: counts[ReadBuyer, buyer].use for buyer in numbered(calls, AddBuyer)}
    buyers, shared = settle_buyers(calls, uses, billed)
    netted = sum(of.net for of in buyers.values()) + shared.unassigned
    return Figures(units, plants, buyers, billed, sold, shared.unassigned, missing, shared.sums[-1], netted, of_hour,
                   closed)


def settle_hour(header, entries, offers1, offers2, readings, rows1, rows2, sums=KWH_BY_KWH):
    """One hour from opening to settling: the answers of all entries and then of all readings, and the figures.

    The rows go by number: the first of `offers1` is the offer of competitive unit 1. `rows1` are PriceRow records,
    `rows2` offers. A refused header opens no hour; see `header_refusal`.
    """
    if header_refusal(header) is not None:
        raise ValueError("the header is refused, so there is no hour")
    entry_answers, calls = judge_entries(entries)
    closed = close_hour(calls, offers1, offers2, sums)
    reading_answers, accepted = judge_readings(readings, calls)
    figures = settle_closed(header, calls, closed, accepted, rows1, rows2, sums)
    return entry_answers + reading_answers, figures


# Any list of calls --------------------------------------------------------------------------------------------------

DONE, OUT_OF_TURN = "done", "out of turn"


def first_place(calls, kind, start):
    """The place of the first call of a kind from a place on, or the list's end."""
    return next((at for at in range(start, len(calls)) if isinstance(calls[at], kind)), len(calls))


def make_calls(header, calls, sums=KWH_BY_KWH):
    """Any list of calls on an empty hour: what each is told, and the figures where the hour is settled, else None.

    The first closing parts the entries before it from the readings behind it, and the first settling behind it ends
    them. Every other call is out of turn.
    """
    closing = first_place(calls, Close, 0)
    settling = first_place(calls, Settle, closing + 1)
    reads = (ReadCompetitive, ReadGuaranteed, ReadBuyer)
    readings = [at for at in range(closing + 1, settling) if isinstance(calls[at], reads)]
    entries = [at for at in range(closing) if not isinstance(calls[at], (*reads, Settle))]
    entry_answers, entered = judge_entries([calls[at] for at in entries])
    reading_answers, read = judge_readings([calls[at] for at in readings], entered)
    told = dict(zip(entries + readings, entry_answers + reading_answers)) | {closing: DONE, settling: DONE}
    figures = None
    if settling < len(calls):
        closed = close_hour(entered, calls[closing].offers1, calls[closing].offers2, sums)
        figures = settle_closed(header, entered, closed, read, calls[settling].rows1, calls[settling].rows2, sums)
    return [told.get(at, OUT_OF_TURN) for at in range(len(calls))], figures


# Listing ------------------------------------------------------------------------------------------------------------

LETTERS = {COMPETITIVE: "C", GUARANTEED: "G"}


def unit_line(key, of):
    group, unit = key
    return f"U {LETTERS[group]} {unit} {of.allocated} {of.bill} {of.payment}"


def plant_line(plant, of):
    return f"P {plant} {of.sold} {of.allocated} {of.run} {of.support} {of.rate} {of.cost}"


def buyer_line(buyer, of):
    return f"B {buyer} {of.share} {of.net}"


def hour_line(figures):
    return f"H {figures.billed} {figures.sold} {figures.unassigned}"


def listing(figures):
    lines = [unit_line(key, of) for key, of in sorted(figures.units.items())]
    lines += [plant_line(plant, of) for plant, of in sorted(figures.plants.items())]
    lines += [buyer_line(buyer, of) for buyer, of in sorted(figures.buyers.items())]
    return "".join(f"{line}\n" for line in (*lines, hour_line(figures)))


def worked_hour():
    """The arguments of `settle_hour` for the worked hour."""
    offer = SteppedOffer([(100, 300), (100, 500)])
    cost = SteppedCost([(100, 350)])
    return dict(
        header=Header(1_000, 10_000, 200, 0, 0),
        entries=[AddPlant(0), AddBuyer(0), AddCompetitive(1, 40, 0), Commit(1, 1, 50)],
        offers1=[offer],
        offers2=[],
        readings=[ReadCompetitive(1, net=130, accepted=110, limited=20, p_act=30), ReadBuyer(1, 200)],
        rows1=[PriceRow(offer, cost)],
        rows2=[],
    )


if __name__ == "__main__":
    print(listing(settle_hour(**worked_hour())[1]), end="")
