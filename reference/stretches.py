"""Costs and splits by stretches of equal price, for hours whose energies are too large to go kWh by kWh.

Follows docs/price-curves.md and docs/allocation.md, and shares no code with the engine. A curve's prices are those of
hour.py; what is said here is where they may change, and how whole stretches are summed up and put in merit order.

`BY_STRETCHES` stands where `hour.KWH_BY_KWH` stands, and must give the same.
"""
from collections import Counter
from itertools import groupby

from hour import MOST_KWH, Modified, Raised, Stepped, Sums, Tariff, split_of


def changes(curve):
    """The kWh behind which the price of a curve may be another one."""
    match curve:
        case Stepped():
            return {last for last, _ in curve.read[:-1]}
        case Tariff():
            return set()
        case Modified():
            return {curve.free} | changes(curve.below)
        case Raised():
            return changes(curve.below)
        case _:
            raise TypeError(f"no kind of curve: {curve!r}")


def stretches(curve, first, last):
    """The kWh from `first` to `last` in their order, as (how many, the price of each)."""
    last = min(last, MOST_KWH)
    if last < first:
        return []
    ends = sorted(end for end in changes(curve) if first <= end < last) + [last]
    return [(end - before, curve.at(end)) for before, end in zip([first - 1] + ends, ends)]


def runs(curve, first, last):
    """The same with neighbours of one price put together."""
    by_price = groupby(stretches(curve, first, last), key=lambda stretch: stretch[1])
    return tuple((sum(kwh for kwh, _ in same), price) for price, same in by_price)


def split(share, limits, offers):
    """Splits a share over a group's units, stretch after stretch in merit order.

    An offer's price never falls, so a unit's own stretches are ordered by their price alone.
    """
    ordered = sorted((price, unit, kwh) for unit, limit in limits.items()
                     for kwh, price in runs(offers[unit], 1, limit))
    taken, left = Counter(), share
    for price, unit, kwh in ordered:
        taken[unit, price] = min(kwh, left)
        left -= taken[unit, price]
    return split_of(share, limits, +taken)


BY_STRETCHES = Sums(runs, split)
