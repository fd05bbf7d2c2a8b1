#!/usr/bin/env python3
"""Splits the shares of a job kWh by kWh, as a second calculation beside the program `split`.

Reads the text of a job without faults on standard input and prints what `split` must print.
"""
import sys


def price_of(kwh, steps):
    """The price of kWh number `kwh` (from 1) by a list of (width, price)."""
    for width, price in steps:
        if kwh <= width:
            return price
        kwh -= width
    return steps[-1][1]


def all_kwh(units):
    """Every kWh within the limits as (price, unit, place), in the order in which they are taken."""
    found = []
    for unit, (limit, steps) in enumerate(units):
        for place in range(1, limit + 1):
            found.append((price_of(place, steps), unit, place))
    return sorted(found)


def answer(units, share):
    taken = all_kwh(units)[:share]
    amounts = [0] * len(units)
    for _, unit, _ in taken:
        amounts[unit] += 1
    print("share", share)
    for unit, amount in enumerate(amounts):
        print("unit", unit + 1, amount)
    print("cost", sum(price for price, _, _ in taken))
    print("uncovered", share - len(taken))


def main():
    units = []
    for line in sys.stdin:
        words = line.split()
        if not words:
            continue
        numbers = [int(word) for word in words[1:]]
        if words[0] == "unit":
            steps = list(zip(numbers[1::2], numbers[2::2]))
            units.append((min(numbers[0], 2_000_000), steps))
        else:
            answer(units, numbers[0])


main()
