"""The explanation of an hour file: its records, and each figure with its formula and numbers, or its first fault.

`explain_file` gives the text that `hour_file.py --explain` prints. The letters are those of docs/settlement.md and
docs/worked-hours.md. A figure's row has its name, its value, and how it comes about. A section with figures of the
listing has the listing's line as its heading, and the sections stand in the listing's order.

A group's marginal price is that of the dearest kWh that its share takes. Where the limits don't cover the share, all
kWh within them are taken, and it is that of the dearest of these. Where no kWh is taken, "none" is printed.

Of a sum of over 20 terms the first three and the last are printed, and how many there are; of over 24 words at a fault
the first 24.

Nothing is settled or judged here: figures, limits and what broke one are handed on by hour.py and hour_file.py. Only
10,000 − ρ, 10,000 − L, 10,000 + loss and P1 + P2 are taken inside a formula.
"""
import textwrap
from dataclasses import dataclass, fields
from itertools import accumulate

import hour
import hour_file
from hour import COMPETITIVE, GUARANTEED, LETTERS
from stretches import BY_STRETCHES

WIDTH = 110
MOST_TERMS, MOST_WORDS = 20, 24

# The end of the formula of a limit and of the executed energy.
BY_LOSSES = "(10,000 − ρ) × (10,000 − L) / 100,000,000]"


# Text ---------------------------------------------------------------------------------------------------------------

@dataclass(frozen=True)
class Row:
    """A figure, its value and how it comes about. Each line of `how` is wrapped by itself."""
    name: str
    value: str
    how: str


@dataclass(frozen=True)
class Section:
    """`aligned` says to which side names and values go."""
    heading: str
    rows: list
    aligned: str = "<>"


def row_text(row, names, values, aligned):
    start = f"    {row.name:{aligned[0]}{names}}  {row.value:{aligned[1]}{values}}   "
    lines = []
    for part in row.how.split("\n"):
        indent = " " * len(start) if lines else start
        lines += textwrap.wrap(part, WIDTH, initial_indent=indent, subsequent_indent=" " * len(start),
                               break_long_words=False, break_on_hyphens=False) or [indent.rstrip()]
    return "".join(f"{line}\n" for line in lines)


def section_text(section):
    names = max((len(row.name) for row in section.rows), default=0)
    values = max((len(row.value) for row in section.rows), default=0)
    rows = [row_text(row, names, values, section.aligned) for row in section.rows]
    return f"{section.heading}\n{''.join(rows)}"


def num(value):
    return f"{value:,}".replace("-", "−")


def sum_of(terms):
    """The terms with a + between them. Of many only the first three and the last are written."""
    if len(terms) > MOST_TERMS:
        return f"{sum_of(terms[:3])} + .. + {num(terms[-1])} ({num(len(terms))} terms)"
    return " + ".join(map(num, terms)) or "0"


def less(total, terms):
    """A total less a sum."""
    return f"{num(total)} − " + (f"({sum_of(terms)})" if len(terms) > 1 else sum_of(terms))


def products(runs):
    return " + ".join(f"{num(kwh)} × {num(price)}" for kwh, price in runs)


def kwh_text(priced):
    return f"kWh {num(priced.first)}" + (f" to {num(priced.last)}" if priced.last > priced.first else "")


def carried_text(energy, loss):
    return f"[{energy} × {num(10_000 - loss)} / 10,000]"


def limit_text(gross, rho, loss):
    return f"[{num(gross)} × {num(10_000 - rho)} × {num(10_000 - loss)} / 100,000,000]"


# Records ------------------------------------------------------------------------------------------------------------

NAMES = dict(enumerate((
    "header", "add plant", "add competitive unit", "add guaranteed unit", "add buyer", "commit", "correct", "put aside",
    "take back", "close", "competitive reading", "guaranteed reading", "buyer reading", "settle"), 1))

DEVIATIONS = tuple(f"type {number} deviation" for number in (2, 3, 5, 6, 8))
ADJUSTMENTS = "opportunity payment", "planning penalty", "non-cooperation penalty"

# The meaning of a record's values, in their order. A competitive unit's steps come after these.
LABELS = {
    hour_file.HEADER: ("ceiling", "CPF", "BAR", "saving", "rate"), hour_file.PLANT: ("L",),
    hour_file.COMPETITIVE: ("plant", "gross", "ρ", "n"),
    hour_file.GUARANTEED: ("plant", "declared gross", "seasonal gross", "ρ", "β"), hour_file.BUYER: ("loss",),
    hour_file.COMMIT: ("plant", "buyer", "volume"), hour_file.CORRECT: ("group", "unit", "gross"),
    hour_file.PUT_ASIDE: ("group", "unit"), hour_file.TAKE_BACK: ("group", "unit"), hour_file.CLOSE: (),
    hour_file.COMPETITIVE_READING: ("unit", "net", "accepted", "lost", "UL", "executed", "α", "P_Act", *DEVIATIONS,
                                    "maintenance day", "exit minute", *ADJUSTMENTS),
    hour_file.GUARANTEED_READING: ("unit", "net", "P_Act", *DEVIATIONS, "maintenance day", "exit minute"),
    hour_file.BUYER_READING: ("buyer", "use"), hour_file.SETTLE: (),
}

# What an entry's number counts.
NUMBERED = {hour_file.PLANT: "plant", hour_file.BUYER: "buyer", hour_file.COMPETITIVE: "C", hour_file.GUARANTEED: "G"}

CALLS = hour_file.ENTRIES | hour_file.READINGS | {hour_file.HEADER: hour.Header,
                                                  hour_file.COMPETITIVE: hour.AddCompetitive}


def steps_text(steps):
    return ", ".join(f"{num(width)} kWh at {num(price)}" for width, price in steps) or "no step"


def meaning(record):
    """The values with their meaning. Zeros in a reading are named together."""
    labelled = list(zip(LABELS[record.kind], record.values))
    shown = labelled[:1] + [pair for pair in labelled[1:] if pair[1] or record.kind not in hour_file.READINGS]
    rest = ["0 in the rest"] if len(shown) < len(labelled) else []
    text = ", ".join([f"{label} {num(value)}" for label, value in shown] + rest)
    if record.kind == hour_file.COMPETITIVE:
        offer, cost = hour_file.step_lists(record.values)
        text += f"; offer {steps_text(offer)}; cost curve {steps_text(cost)}"
    return text


def record_row(place, record, answer):
    """`answer` is what the record's call was told, or None."""
    values = ", ".join(map(str, record.values))
    number = f"{NUMBERED[record.kind]} {answer.number}: " if record.kind in NUMBERED else ""
    return Row(num(place), NAMES[record.kind], f"{values}\n{number}{meaning(record)}" if record.values else "")


def records_section(read):
    rows = [record_row(place, record, answer)
            for (place, _), record, answer in zip(read.pieces, read.records, read.told)]
    return Section("Records: byte, record, values", rows, "><")


# Closing ------------------------------------------------------------------------------------------------------------

@dataclass(frozen=True)
class SettledHour:
    """What an hour was settled from, and its figures."""
    header: hour.Header
    calls: list
    figures: hour.Figures

    def added(self, key):
        group, unit = key
        return hour.units_of(self.calls, group)[unit]

    def loss(self, plant):
        return hour.numbered(self.calls, hour.AddPlant)[plant].loss

    def own(self, plant, group=None):
        """The units of a plant, or of one of its groups, as (group, unit)."""
        return [key for key, of in self.figures.units.items() if of.plant == plant and group in (None, key[0])]


def unit_name(key):
    group, unit = key
    return f"{LETTERS[group]} {unit}"


def limit_row(key, of, added, loss):
    if not of.counts:
        return Row(f"limit of {unit_name(key)}", num(of.limit), "0, since it doesn't count")
    numbers = limit_text(of.gross, added.rho, loss)
    return Row(f"limit of {unit_name(key)}", num(of.limit), f"[G × {BY_LOSSES} = {numbers}")


def unit_closing_rows(settled, key):
    """Whether the unit counts, the energy that is used, and its limit."""
    of, added, name = settled.figures.closed.units[key], settled.added(key), unit_name(key)
    counts = "it counts" if of.counts else "it is aside, so it doesn't count"
    corrected = f"; corrected from {num(added.gross)}" if of.declared != added.gross else ""
    if key[0] == COMPETITIVE:
        rows = [Row(f"gross of {name}", num(of.declared), counts + corrected)]
    else:
        rows = [Row(f"declared gross of {name}", num(of.declared), counts + corrected),
                Row(f"seasonal gross of {name}", num(of.gross), "its limit goes by this")]
    return rows + [limit_row(key, of, added, settled.loss(of.plant))]


def share_rows(settled, plant, of):
    declared = {}
    for group in hour.ADDS:
        units = [settled.figures.closed.units[key] for key in settled.own(plant, group)]
        declared[group] = [unit.declared for unit in units if unit.counts]
    (first, second), (share1, share2) = of.declared, of.shares
    ratio = f"[T × P1 / (P1 + P2)] = [{num(of.sold)} × {num(first)} / {num(first + second)}]"
    return [Row("P1", num(first), sum_of(declared[COMPETITIVE])), Row("P2", num(second), sum_of(declared[GUARANTEED])),
            Row("share of group 1", num(share1), ratio if first + second else "T, since P1 + P2 is 0"),
            Row("share of group 2", num(share2), f"the rest of T: {num(of.sold)} − {num(share1)}")]


def dearest_row(group, share, split):
    if split.dearest is None:
        how = "no kWh is taken: the share is 0" if share == 0 else "no kWh is taken: none is within the limits"
    elif split.uncovered:
        how = "the dearest kWh within the limits; all are taken, and don't cover the share"
    else:
        how = "the dearest kWh that is taken"
    return Row(f"marginal price of group {group}", "none" if split.dearest is None else num(split.dearest), how)


def amount_row(key, of, split):
    """Co of a unit, by what closing found of it."""
    taken = steps_text(split.taken[key[1]]) if split.taken.get(key[1]) else ""
    if not of.counts:
        how = "0, since it doesn't count"
    elif split.uncovered:
        how = "its limit, since the share is over the sum of the limits" + (f": {taken}" if taken else "")
    else:
        how = taken or "no kWh of it is taken"
    return Row(f"Co of {unit_name(key)}", num(split.amounts.get(key[1], 0)), how)


def split_rows(settled, plant, group, of):
    closed = settled.figures.closed
    share, split = of.shares[group - 1], of.splits[group - 1]
    rows = [dearest_row(group, share, split)]
    rows += [amount_row(key, closed.units[key], split) for key in settled.own(plant, group)]
    amounts = list(split.amounts.values())
    return rows + [Row(f"uncovered in group {group}", num(split.uncovered), f"share less Co: {less(share, amounts)}")]


def plant_closing_section(settled, plant, of):
    """`of` is what closing derived of the plant."""
    own, figures = settled.own(plant), settled.figures
    rows = [Row("T", num(of.sold), f"its commitments: {sum_of(of.volumes)}")]
    rows += [row for key in own for row in unit_closing_rows(settled, key)]
    rows += share_rows(settled, plant, of)
    rows += [row for group in hour.ADDS for row in split_rows(settled, plant, group, of)]
    allocated = [figures.units[key].allocated for key in own]
    rows += [Row("ΣCo", num(figures.plants[plant].allocated), sum_of(allocated)),
             Row("run support", num(of.run), f"uncovered: {sum_of([split.uncovered for split in of.splits])}")]
    return Section(f"At closing: plant {plant}", rows)


def buyers_closing_section(figures):
    rows = [Row(f"commitments of buyer {buyer}", num(of.bought), sum_of(of.volumes))
            for buyer, of in figures.buyers.items()]
    return Section("At closing: buyers", rows)


def closing_sections(settled):
    sections = [plant_closing_section(settled, plant, of) for plant, of in settled.figures.closed.plants.items()]
    return sections + ([buyers_closing_section(settled.figures)] if settled.figures.buyers else [])


# Units --------------------------------------------------------------------------------------------------------------

def bill_row(settled, key, of):
    missing = (type(of.reading), key[1]) in settled.figures.missing
    numbers = carried_text(num(of.reading.net), settled.loss(of.plant))
    return Row("Bill", num(of.bill), "it wasn't read, so net is 0: " * missing + f"r(net) = {numbers}")


def most_bill(of, energy):
    """The lesser of an energy and the bill."""
    return f"min({energy}, {num(of.bill)})"


def taken_rows(of, loss):
    """Com, r(Com) and a."""
    reading, parts = of.reading, of.parts
    com = f"{num(reading.accepted)} + {num(reading.lost)} − {num(reading.limited)}"
    greater = f"max({num(parts.carried_com)}, {num(of.allocated)})"
    return [Row("Com", num(parts.com), f"accepted + lost − UL = {com}"),
            Row("r(Com)", num(parts.carried_com), carried_text(num(parts.com), loss)),
            Row("a", num(parts.a), f"min(max(r(Com), Co), Bill) = {most_bill(of, greater)}")]


def asked_rows(of, rho, loss):
    """b1, b2 and b."""
    reading, parts = of.reading, of.parts
    sum_text = carried_text(f"({num(reading.accepted)} + {num(reading.lost)})", loss)
    b1 = f"min(r(accepted + lost), Bill) = {most_bill(of, sum_text)} = {most_bill(of, num(parts.carried_accepted))}"
    executed = limit_text(reading.executed, rho, loss)
    b2 = (f"α is 1: min([executed × {BY_LOSSES}, Bill) = {most_bill(of, executed)}"
          f" = {most_bill(of, num(parts.carried_executed))}")
    return [Row("b1", num(parts.b1), b1), Row("b2", num(parts.b2), b2 if reading.alpha else "0, since α is 0"),
            Row("b", num(parts.b), f"max(b1, b2) = max({num(parts.b1)}, {num(parts.b2)})")]


def part_a_row(parts):
    how = f"{kwh_text(parts.part_a)} by the modified offer: {products(parts.part_a.runs)}"
    return Row("A", num(parts.part_a.cost), how if parts.a else "no kWh, since a is 0")


def part_b_rows(parts):
    by_cost, by_offer = parts.cost_of_b, parts.offer_of_b
    if parts.b <= parts.a:
        return [Row("B", num(parts.part_b), "0, since b is not over a")]
    lesser = f"the lesser of {num(by_cost.cost)} and {num(by_offer.cost)}"
    return [Row("B by cost", num(by_cost.cost), f"{kwh_text(by_cost)} by the cost curve: {products(by_cost.runs)}"),
            Row("B by offer", num(by_offer.cost),
                f"{kwh_text(by_offer)} by the modified offer: {products(by_offer.runs)}"),
            Row("B", num(parts.part_b), lesser)]


def raised_text(rest, kwh):
    """How the raised cost curve prices a kWh."""
    price, numbers = num(rest.at(kwh)), f"[{num(rest.below.at(kwh))} × 12 / 10]"
    under = rest.at(kwh) < rest.ceiling
    return f"{price} = {numbers}" if under else f"{price} is the ceiling, {numbers} being no less"


def part_c_row(parts):
    priced, rest = parts.part_c, parts.rest
    places = list(accumulate((kwh for kwh, _ in priced.runs), initial=priced.first))[:-1]
    if not priced.runs:
        how = "no kWh, since max(a, b) is Bill"
    elif parts.raised:
        how = (f"A is 0, so {kwh_text(priced)} by the raised cost curve: {products(priced.runs)}, where "
               + ", ".join(raised_text(rest, place) for place in places))
    else:
        how = (f"A is not 0, so {kwh_text(priced)} each at {num(rest.rate)}, the modified offer's price of kWh "
               f"{num(parts.com)}, Com: {products(priced.runs)}")
    return Row("C", num(priced.cost), how)


def competitive_section(settled, key, of):
    added, loss, parts = settled.added(key), settled.loss(of.plant), of.parts
    payment = Row("payment", num(of.payment), f"A + B + C = {sum_of(parts.costs)}")
    return Section(hour.unit_line(key, of), [
        bill_row(settled, key, of), *taken_rows(of, loss), *asked_rows(of, added.rho, loss), part_a_row(parts),
        *part_b_rows(parts), part_c_row(parts), payment])


def guaranteed_section(settled, key, of):
    parts, saving = of.parts, settled.header.saving
    priced = f"{kwh_text(parts.by_offer)} by the tariff: {products(parts.by_offer.runs)}" if of.bill else "no kWh"
    saved = f"Bill × β × saving = {num(of.bill)} × {num(settled.added(key).beta)} × {num(saving)}"
    return Section(hour.unit_line(key, of), [
        bill_row(settled, key, of), Row("offer's cost", num(parts.by_offer.cost), priced),
        Row("saving's part", num(parts.saved), saved),
        Row("payment", num(of.payment), f"{num(parts.by_offer.cost)} + {num(parts.saved)}")])


def unit_section(settled, key, of):
    return (competitive_section if key[0] == COMPETITIVE else guaranteed_section)(settled, key, of)


# Plants -------------------------------------------------------------------------------------------------------------

def quotient_row(name, quotient, money, energy):
    """A quotient of the rate, or why it is left out."""
    if quotient is None:
        return Row(name, "left out", f"since {name[-2]} is not positive")
    read, why = ("0", f", as {name[1]} is below 0") if money < 0 else (num(money), "")
    return Row(name, num(quotient), f"[{read} / {num(energy)}]{why}")


def adjustment_rows(figures):
    """The adjustments of all competitive units, in rial."""
    sums = figures.sums
    readings = [of.reading for (group, _), of in figures.units.items() if group == COMPETITIVE]
    return [Row(name, num(total), f"in rial: {sum_of([getattr(reading, field) for reading in readings])}")
            for name, total, field in (("opportunity payments", sums.opportunity, "opportunity"),
                                       ("planning penalties", sums.planning, "planning"),
                                       ("non-cooperation penalties", sums.noncooperation, "noncooperation"))]


def hour_section(figures):
    """The hour's own sums, C and D among them."""
    sums, units = figures.sums, figures.units.values()
    money = (f"{num(sums.payments)} + 1,000 × {num(sums.opportunity)} − 1,000 × {num(sums.planning)}"
             f" − 1,000 × {num(sums.noncooperation)}")
    return Section("The hour's sums", [
        Row("all payments", num(sums.payments), sum_of([of.payment for of in units])),
        *adjustment_rows(figures),
        Row("C", num(sums.money), f"all payments and these three: {money}"),
        Row("all Bill", num(figures.billed), sum_of([of.bill for of in units])),
        Row("all commitments", num(figures.sold), sum_of([of.sold for of in figures.plants.values()])),
        Row("D", num(sums.over_sold), f"all Bill less all commitments: {num(figures.billed)} − {num(figures.sold)}"),
        quotient_row("[C / D]", sums.quotient, sums.money, sums.over_sold)])


def active_row(key, of):
    reading, marked = of.reading, of.active.mark == 1
    when = f"day {reading.day}, minute {num(reading.minute)}"
    if marked:
        named, why = of.active.terms[:-1], f"the mark is set ({when}), so type 6, {num(reading.type6)}, is left out"
    else:
        named, why = of.active.terms, f"the mark is not set ({when})"
    types = "P_Act, types 2, 3, 5, 8" + ("" if marked else ", 6")
    return Row(f"active energy of {unit_name(key)}", num(of.active.total), f"{sum_of(named)} ({types}); {why}")


def support_rows(of, loss, energies):
    left = f"max(0, {num(of.allocated)} − {num(of.carried_active)})"
    return [Row("S", num(of.active), sum_of(energies)),
            Row("r(S)", num(of.carried_active), carried_text(num(of.active), loss)),
            Row("day support", num(of.day), f"max(0, ΣCo − r(S)) = {left}"),
            Row("final support", num(of.support), f"run + day = {num(of.run)} + {num(of.day)}")]


def rate_row(of, of_hour, ceiling):
    counted = [quotient for quotient in (of.own_quotient, of_hour) if quotient is not None]
    if not counted:
        how = f"the ceiling {num(ceiling)}, since both quotients are left out"
    elif len(counted) == 1:
        how = ("[E / F]" if of_hour is None else "[C / D]") + ", since the other is left out"
    else:
        how = f"the greater of {num(of.own_quotient)} and {num(of_hour)}"
    return Row("rate", num(of.rate), how + f", but at most {num(hour.MOST_RATE)}" * (of.rate < max(counted, default=0)))


def rate_rows(of, own, sums, ceiling):
    """E, F, both quotients and the rate."""
    payments, bills = [unit.payment for unit in own], [unit.bill for unit in own]
    over = f"its bills less ΣCo: {sum_of(bills)} − {num(of.allocated)}"
    return [Row("E", num(of.payments), sum_of(payments)), Row("F", num(of.over_allocated), over),
            quotient_row("[E / F]", of.own_quotient, of.payments, of.over_allocated),
            quotient_row("[C / D]", sums.quotient, sums.money, sums.over_sold), rate_row(of, sums.quotient, ceiling)]


def cost_rows(of, header, loss):
    parts = of.cost_parts
    readiness = f"[{num(of.run)} × {num(header.cpf)} × {num(header.bar)} / {num(10_000 - loss)}]"
    return [Row("support at the rate", num(parts.at_rate), f"final × rate = {num(of.support)} × {num(of.rate)}"),
            Row("readiness", num(parts.readiness), f"[run × CPF × BAR / (10,000 − L)] = {readiness}"),
            Row("support cost", num(of.cost), f"{num(parts.at_rate)} + {num(parts.readiness)}")]


def plant_section(settled, plant, of):
    loss, keys, header = settled.loss(plant), settled.own(plant), settled.header
    own = [settled.figures.units[key] for key in keys]
    rows = [active_row(key, unit) for key, unit in zip(keys, own)]
    rows += support_rows(of, loss, [unit.active.total for unit in own])
    rows += rate_rows(of, own, settled.figures.sums, header.ceiling) + cost_rows(of, header, loss)
    return Section(hour.plant_line(plant, of), rows)


# Buyers and the hour ------------------------------------------------------------------------------------------------

def buyer_section(settled, buyer, of, before):
    """`before` is the figures of the buyer before, or None."""
    figures, loss = settled.figures, hour.numbered(settled.calls, hour.AddBuyer)[buyer].loss
    missing, total = (hour.ReadBuyer, buyer) in figures.missing, figures.all_weights
    weight_before, share_before = (before.weight_upto, before.share_upto) if before else (0, 0)
    weight = f"[use × (10,000 + loss) / 10,000] = [{num(of.use)} × {num(10_000 + loss)} / 10,000]"
    weights = f"W({buyer}) = {num(weight_before)} + {num(of.weight)}"
    part = f"[TG × W({buyer}) / W] = [{num(figures.billed)} × {num(of.weight_upto)} / {num(total)}]"
    return Section(hour.buyer_line(buyer, of), [
        Row("weight", num(of.weight), "it wasn't read, so use is 0: " * missing + weight),
        Row("sum of the weights up to it", num(of.weight_upto), weights),
        Row("share up to it", num(of.share_upto), part if total else "0, since W is 0"),
        Row("share", num(of.share), f"{num(of.share_upto)} − {num(share_before)}" if total else "0, since W is 0"),
        Row("commitments", num(of.bought), sum_of(of.volumes)),
        Row("net purchase", num(of.net), f"share − commitments = {num(of.share)} − {num(of.bought)}")])


def buyer_sections(settled):
    buyers = settled.figures.buyers
    return [buyer_section(settled, buyer, of, buyers.get(buyer - 1)) for buyer, of in buyers.items()]


def total_section(figures):
    nets = [of.net for of in figures.buyers.values()]
    unassigned = f"0, since W is {num(figures.all_weights)}, not 0" if figures.all_weights else "all Bill, since W is 0"
    sums = (f"net purchases and unassigned: {sum_of([*nets, figures.unassigned])} = {num(figures.netted)}; all Bill "
            f"less all T: {num(figures.billed)} − {num(figures.sold)} = {num(figures.sums.over_sold)}")
    return Section(hour.hour_line(figures), [
        Row("all Bill", num(figures.billed), sum_of([of.bill for of in figures.units.values()])),
        Row("all T", num(figures.sold), sum_of([of.sold for of in figures.plants.values()])),
        Row("unassigned", num(figures.unassigned), unassigned), Row("it adds up", num(figures.netted), sums)])


def hour_sections(settled):
    figures = settled.figures
    return [*closing_sections(settled), *(unit_section(settled, key, of) for key, of in figures.units.items()),
            hour_section(figures), *(plant_section(settled, plant, of) for plant, of in figures.plants.items()),
            *buyer_sections(settled), total_section(figures)]


# Faults -------------------------------------------------------------------------------------------------------------

FAULTS = {
    1: "it names a plant that isn't there",
    2: "it names a unit that isn't there, or no group",
    3: "it names a buyer that isn't there",
    4: "there is no room for one more",
    5: "a loss or an internal consumption is over its limit",
    6: "an energy, a use or a volume is outside its limits",
    7: "the plant would commit more than it may in all",
    8: "a list of steps is empty or too long, a width is outside its limits, or an offer's price falls",
    9: "a price, another number of the header or an adjustment is over its limit",
    10: "a mark is neither 0 nor 1, or a day or a minute is over its limit",
    11: "more is made under a technical limit than was accepted and lost",
    12: "settle is missing at the end of the file",
    14: "the file is too long, or its last word isn't whole",
    15: "no whole record stands here",
    16: "this isn't the record's turn",
}

LAYERS = {"F": "the file", "B": "the book", "O": "the step lists"}


def label_of(name, kind):
    """What a field of a record's call is named here; other names stay."""
    names = [field.name for field in fields(CALLS[kind])] if kind in CALLS else []
    return dict(zip(names, LABELS.get(kind, ()))).get(name, name)


def plural(count, noun):
    return f"{num(count)} {noun}" + ("" if count == 1 else "s")


def number_words(breach):
    """For a number that names a row of a table."""
    table = "its group" if breach.name == "unit" else "the hour"
    return f"there is no {breach.name} {num(breach.value)}: {table} has {num(breach.most)}, and numbers start at 1"


def form_words(breach):
    """For what is wrong with the form of a file or of a record, or None for another breach."""
    value, most = num(breach.value), num(breach.most)
    match breach.name:
        case "kind" if breach.value == 0:
            return "its kind is 0: a value stands where a head should"
        case "values":
            return f"its head counts {plural(breach.most, 'value')}, and it is cut after {value}"
        case "count" if breach.least == breach.most:
            return f"its head counts {plural(breach.value, 'value')}, and a record of its kind has {most}"
        case "odd count":
            return f"its head counts {value} values, an odd number"
        case "bytes past a word":
            return f"the length is {value} over a multiple of four"
    return None


def book_words(breach, kind):
    """For a value that a record may not have."""
    value, most = num(breach.value), num(breach.most)
    match breach.name:
        case "plant" | "unit" | "buyer":
            return number_words(breach)
        case "group":
            return f"group is {value}, neither 1 nor 2"
        case "number":
            return f"it would be number {value}, at most {most}"
        case "sold":
            return f"the plant's commitments would be {value}, at most {most}"
        case "limited" if breach.value <= hour.MOST_KWH:
            return f"UL is {value}, at most {most}, which is accepted plus lost"
    side = f"at least {num(breach.least)}" if breach.value < breach.least else f"at most {most}"
    return f"{label_of(breach.name, kind)} is {value}, {side}"


BEFORE_CLOSE, BEHIND_CLOSE = "after the header and before close", "after close and before settle"
WHERE = {"h": "first, and nowhere else", "e": BEFORE_CLOSE, "c": BEFORE_CLOSE, "r": BEHIND_CLOSE, "s": BEHIND_CLOSE}


def order_words(read):
    """For a record that stands where it may not: where it may, and what stands before it."""
    where = WHERE[hour_file.letter(read.found[read.fault.at])]
    turns = [f"{NAMES[record.kind]} is record {number}" for number, record in enumerate(read.records, 1)
             if hour_file.letter(record) in "hcs"]
    return f"it may stand {where}; {', '.join(turns) or 'no header stands before it'}"


def words_text(words):
    shown = " ".join(f"{word:08x}" for word in words[:MOST_WORDS])
    return shown + (f" .. ({num(len(words))} words)" if len(words) > MOST_WORDS else "")


def name_of(kind):
    return NAMES.get(kind, "no record")


def piece_rows(read):
    """The record at the fault, or the words that stand there."""
    (place, piece), record = read.pieces[read.fault.at], read.found[read.fault.at]
    rows = [Row("record", "", f"{num(read.fault.at + 1)}: {name_of(hour_file.kind_of(piece[0]))}"),
            Row("place", "", f"byte {num(place)}")]
    if record is None:
        return rows + [Row("words", "", words_text(piece))]
    values = f"{', '.join(map(str, record.values))}\n{meaning(record)}" if record.values else "none"
    return rows + [Row("values", "", values)]


def length_rows(read):
    """For a fault that is at no record."""
    rows = [Row("length", "", plural(read.length, "byte"))]
    if read.fault.number == 12 and read.records:
        last = f"the last is {NAMES[read.records[-1].kind]}, at byte {num(read.pieces[len(read.records) - 1][0])}"
        rows.append(Row("records", "", f"{num(len(read.records))}; {last}"))
    return rows


def since_words(read):
    fault = read.fault
    kind = hour_file.kind_of(read.pieces[fault.at][1][0]) if fault.at is not None else None
    words = [form_words(breach) or book_words(breach, kind) for breach in fault.breaches]
    if fault.number == 15 and fault.breaches[0].name == "values":
        words[0] += ", by " + ("a head" if fault.at + 1 < len(read.pieces) else "the end of the file")
    return words + ([order_words(read)] if fault.number == 16 else [])


def fault_section(read):
    fault = read.fault
    layer = f"{fault.layer}, {LAYERS[fault.layer]}"
    rows = piece_rows(read) if fault.at is not None else length_rows(read)
    rows.append(Row("fault", "", f"{fault.number} of layer {layer}: {FAULTS[fault.number]}"))
    return Section(fault.line().rstrip("\n"), rows + [Row("since", "", words) for words in since_words(read)])


# Files --------------------------------------------------------------------------------------------------------------

def explain_file(data):
    """The explanation of an hour file, by stretches of equal price."""
    read = hour_file.read_file(data)
    if read.fault:
        return section_text(fault_section(read))
    records = read.records
    figures = hour_file.settled(records, BY_STRETCHES)
    settled = SettledHour(hour_file.header_of(records), hour_file.entry_calls(records), figures)
    return "\n".join(map(section_text, [records_section(read), *hour_sections(settled)]))
