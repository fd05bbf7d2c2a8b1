#!/usr/bin/env python3
"""Hour files of chosen sizes.

    python3 bench/hours.py FOLDER

writes them to the folder as NAME.hour. None has a fault, so each is listed. They are drawn as reference/file_cases.py
draws its largest hour, each from the same seed, and hold as many records as chosen.
"""
import os
import sys

sys.dont_write_bytecode = True
sys.path.insert(0, os.path.join(os.path.dirname(os.path.abspath(__file__)), "..", "reference"))

from cases import Random
from file_cases import Drawing, largest_hour, record
from hour_file import BUYER, CLOSE, COMMIT, COMPETITIVE, GUARANTEED, HEADER, PLANT, SETTLE, write_file

SEED = 1

# The energies of the largest hour are below the first number, those of the wide one below the second, which is the most
# that a unit's energy may be.
ENERGY, WIDE_ENERGY = 60, 2_000_000

# Prices of the dear hour are multiples of this; the highest price is ten times as much.
DEAR = 1_000_000

# What grows, and its sizes. The rest is as in the largest hour.
GROWTH = {
    "units": (16, 32, 64, 128),
    "steps": (1, 2, 5, 10),
    "commitments": (96, 192, 384, 768),
    "plants": (4, 8, 16, 32),
}


class Sized(Drawing):
    """Draws the records of an hour whose step lists all have `steps` steps and in which each unit and buyer is read."""

    def __init__(self, random, plan, energy, steps, price):
        super().__init__(random, plan, energy, every=True)
        self.steps = steps
        self.price = price or self.price

    def step_count(self):
        return self.steps


def sized_hour(plants=32, units=128, steps=10, buyers=64, commitments=768, energy=ENERGY, price=None, seed=SEED):
    """The file of an hour with so many plants, units in each group, buyers and commitments, and steps in each list.
    Without arguments it has the largest size. Energies are below `energy`, and prices are multiples of `price`, or of
    a number that is drawn."""
    plan = {PLANT: plants, COMPETITIVE: units, GUARANTEED: units, BUYER: buyers, COMMIT: commitments}
    return write_file(Sized(Random(seed), plan, energy, steps, price).hour())


def empty_hour():
    """The file of an hour in which nothing is entered."""
    return write_file([record(HEADER, 1_000, 10_000, 200, 0, 0), record(CLOSE), record(SETTLE)])


def hours():
    """All files by name: the empty hour, the largest three, and those that show growth."""
    named = {"empty": empty_hour(), "largest": write_file(largest_hour(Random(SEED))),
             "wide": sized_hour(energy=WIDE_ENERGY), "dear": sized_hour(price=DEAR)}
    for what, sizes in GROWTH.items():
        named |= {f"{what}-{size}": sized_hour(**{what: size}) for size in sizes}
    return named


def main():
    if len(sys.argv) != 2:
        sys.exit("usage: hours.py FOLDER")
    os.makedirs(sys.argv[1], exist_ok=True)
    for name, data in hours().items():
        with open(os.path.join(sys.argv[1], f"{name}.hour"), "wb") as file:
            file.write(data)
        print(f"{name}: {len(data)} bytes")


if __name__ == "__main__":
    main()
