#!/usr/bin/env python3
"""An hour file by a second calculation: its listing, or the line of its first fault.

Follows docs/hour-file.md and docs/listing.md. Calls are judged and hours settled by hour.py. Shares no code with the
engine.

The whole file is cut into pieces first, each of them one record or none. Where the pieces stop being in order is found
over all of them at once, and the calls of the records before that are judged as one list.

    python3 reference/hour_file.py [--stretches] < FILE
    python3 reference/hour_file.py [--stretches] --explain FILE

The first prints what `list_file` answers. It sums kWh by kWh, or with --stretches by stretches of equal price. The
second prints each record and how each figure comes about, or where and why the first fault is; explain.py has its
text. It always sums by stretches, since an hour of full energies takes minutes kWh by kWh. So --stretches changes
nothing there.
"""
import os
import re
import sys
from dataclasses import dataclass

sys.dont_write_bytecode = True
sys.path.insert(0, os.path.dirname(os.path.abspath(__file__)))

import hour
from hour import (KWH_BY_KWH, AddBuyer, AddCompetitive, AddGuaranteed, AddPlant, Breach, Commit, Correct, PriceRow,
                  PutAside, ReadBuyer, ReadCompetitive, ReadGuaranteed, Refused, SteppedCost, SteppedOffer, TakeBack,
                  Tariff)
from stretches import BY_STRETCHES

WORD = 4
MOST_BYTES = 65_536
MOST_VALUE = 2**28 - 1

VALUE = 0
(HEADER, PLANT, COMPETITIVE, GUARANTEED, BUYER, COMMIT, CORRECT, PUT_ASIDE, TAKE_BACK, CLOSE, COMPETITIVE_READING,
 GUARANTEED_READING, BUYER_READING, SETTLE) = range(1, 15)

# How many values a record has. The kind that is missing here has no fixed count.
COUNTS = {HEADER: 5, PLANT: 1, GUARANTEED: 5, BUYER: 1, COMMIT: 3, CORRECT: 3, PUT_ASIDE: 2, TAKE_BACK: 2, CLOSE: 0,
          COMPETITIVE_READING: 18, GUARANTEED_READING: 10, BUYER_READING: 2, SETTLE: 0}

# The call of a record whose values are those of the call.
ENTRIES = {PLANT: AddPlant, GUARANTEED: AddGuaranteed, BUYER: AddBuyer, COMMIT: Commit, CORRECT: Correct,
           PUT_ASIDE: PutAside, TAKE_BACK: TakeBack}
READINGS = {COMPETITIVE_READING: ReadCompetitive, GUARANTEED_READING: ReadGuaranteed, BUYER_READING: ReadBuyer}


@dataclass(frozen=True)
class Record:
    kind: int
    values: tuple


@dataclass(frozen=True)
class Fault:
    """`at` is the piece that it is at, from 0, and `breaches` are the values that it found there. 12 and 14 are at no
    piece."""
    layer: str
    number: int
    place: int
    at: int | None = None
    breaches: tuple = ()

    def line(self):
        return f"R {self.layer} {self.number} {self.place}\n"


# Words --------------------------------------------------------------------------------------------------------------

def words_of(data):
    return [int.from_bytes(data[at:at + WORD], "little") for at in range(0, len(data), WORD)]


def bytes_of(words):
    return b"".join(word.to_bytes(WORD, "little") for word in words)


def head(kind, count):
    return kind * 2**28 + count


def kind_of(word):
    return word // 2**28


def number_of(word):
    return word % 2**28


def spell(records):
    """The words of a list of records. Each head counts the values that the record has."""
    return [word for record in records for word in (head(record.kind, len(record.values)), *record.values)]


def write_file(records):
    return bytes_of(spell(records))


# Pieces -------------------------------------------------------------------------------------------------------------

def pieces(words):
    """The words in pieces, as (place, words). A piece begins at every head and where a head's values have ended."""
    heads = [at for at, word in enumerate(words) if kind_of(word) != VALUE]
    ends = [min(at + 1 + number_of(words[at]), following) for at, following in zip(heads, heads[1:] + [len(words)])]
    starts = sorted({0, *heads, *ends} - {len(words)})
    return [(WORD * start, words[start:end]) for start, end in zip(starts, starts[1:] + [len(words)])]


def unit_flaws(values):
    """Why a competitive unit can't have these values, a tuple, or None."""
    count = len(values)
    if count < 4:
        return (Breach("count", count, 4, MOST_VALUE),)
    if count % 2 != 0:
        return (Breach("odd count", count, 0, 0),)
    return hour.outside("count", count, 4 + 2 * values[3], MOST_VALUE)


def flaws(piece):
    """Why a piece is no record, a tuple of breaches, or None where it is one."""
    kind, count, there = kind_of(piece[0]), number_of(piece[0]), len(piece) - 1
    if not HEADER <= kind <= SETTLE:
        return (Breach("kind", kind, HEADER, SETTLE),)
    if there != count:
        return (Breach("values", there, count, count),)
    return unit_flaws(piece[1:]) if kind == COMPETITIVE else hour.outside("count", count, COUNTS[kind], COUNTS[kind])


def record_of(piece):
    """The record that a piece is, or None."""
    return Record(kind_of(piece[0]), tuple(piece[1:])) if flaws(piece) is None else None


# Order --------------------------------------------------------------------------------------------------------------

# h: header, e: entry, c: close, r: reading, s: settle, -: no record
IN_ORDER = re.compile("(he*(cr*s?)?)?")


def letter(record):
    if record is None:
        return "-"
    return {HEADER: "h", CLOSE: "c", SETTLE: "s"}.get(record.kind, "r" if record.kind in READINGS else "e")


def form_fault(letters, found, length):
    """How many of the pieces come before the first fault of form, and that fault or None."""
    good = IN_ORDER.match(letters).end()
    if good < len(letters):
        place, piece = found[good]
        broken = flaws(piece)
        return good, Fault("F", 16 if broken is None else 15, place, good, broken or ())
    return good, None if letters.endswith("s") else Fault("F", 12, length)


# Calls --------------------------------------------------------------------------------------------------------------

def step_lists(values):
    """The offer and the cost curve of a competitive unit's record, each a list of (width, price)."""
    steps = list(zip(values[4::2], values[5::2]))
    return steps[:values[3]], steps[values[3]:]


def call_of(record):
    if record.kind == COMPETITIVE:
        outcome = hour.refusal(hour.rows_of_lists(*step_lists(record.values)))
        return AddCompetitive(*record.values[:3], *([outcome.number, outcome.breaches] if outcome else []))
    return (ENTRIES | READINGS)[record.kind](*record.values)


def header_of(records):
    return hour.Header(*records[0].values)


def entry_calls(records):
    return [call_of(record) for record in records if letter(record) == "e"]


def reading_calls(records):
    return [call_of(record) for record in records if letter(record) == "r"]


def answers(records):
    """For each record of a list in order what its call is told, or None where it can't be turned down.

    Past the first refusal they mean nothing.
    """
    refused = hour.refusal(hour.rows_of_header(header_of(records))) if records else None
    if refused:
        return [refused] + [None] * (len(records) - 1)
    entry_answers, accepted = hour.judge_entries(entry_calls(records))
    reading_answers, _ = hour.judge_readings(reading_calls(records), accepted)
    judged = {"e": iter(entry_answers), "r": iter(reading_answers)}
    return [next(judged.get(letter(record), iter([None]))) for record in records]


def layer_of(record, number):
    return "O" if record.kind == COMPETITIVE and number in (8, 9) else "B"


def call_fault(records, told, places):
    """The fault of the first call that is turned down, or None."""
    faults = [Fault(layer_of(record, answer.number), answer.number, place, at, answer.breaches)
              for at, (record, place, answer) in enumerate(zip(records, places, told)) if isinstance(answer, Refused)]
    return faults[0] if faults else None


# Settling -----------------------------------------------------------------------------------------------------------

def hour_of(records):
    """The arguments of `settle_hour` for an hour whose records are in order and whose step lists are taken."""
    lists = [step_lists(record.values) for record in records if record.kind == COMPETITIVE]
    rows = [PriceRow(SteppedOffer(offer), SteppedCost(cost)) for offer, cost in lists]
    header = header_of(records)
    tariffs = [Tariff(header.rate) for record in records if record.kind == GUARANTEED]
    return dict(header=header, entries=entry_calls(records), offers1=[row.offer for row in rows], offers2=tariffs,
                readings=reading_calls(records), rows1=rows, rows2=tariffs)


def settled(records, sums):
    """The figures of an hour none of whose calls is turned down."""
    return hour.settle_hour(**hour_of(records), sums=sums)[1]


# Files --------------------------------------------------------------------------------------------------------------

@dataclass(frozen=True)
class HourFile:
    """What a file is read as: its pieces as (place, words), of each piece the record that it is or None, what the calls
    of the records before the first fault of form are told, and the first fault or None."""
    length: int
    pieces: list
    found: list
    told: list
    fault: Fault | None

    @property
    def records(self):
        """Those before the first fault of form."""
        return self.found[:len(self.told)]


def length_flaws(length):
    """Why a file can't have this length, a tuple, or None."""
    return (hour.outside("bytes past a word", length % WORD, 0, 0)
            or hour.outside("length", length, 0, MOST_BYTES))


def read_file(data):
    broken = length_flaws(len(data))
    if broken:
        return HourFile(len(data), [], [], [], Fault("F", 14, 0, None, broken))
    cut = pieces(words_of(data))
    found = [record_of(piece) for _, piece in cut]
    good, of_form = form_fault("".join(map(letter, found)), cut, len(data))
    told = answers(found[:good])
    fault = call_fault(found[:good], told, [place for place, _ in cut]) or of_form
    return HourFile(len(data), cut, found, told, fault)


def list_file(data, sums=KWH_BY_KWH):
    """The listing of an hour file, or the line of its first fault."""
    read = read_file(data)
    return read.fault.line() if read.fault else hour.listing(settled(read.records, sums))


# The program --------------------------------------------------------------------------------------------------------

def explain(name):
    """Prints the explanation of the file of this name."""
    from explain import explain_file  # explain.py reads files by this module.
    try:
        with open(name, "rb") as file:
            data = file.read()
    except OSError as error:
        sys.exit(f"hour_file.py: {name}: {error.strerror}")
    sys.stdout.reconfigure(encoding="utf-8")
    print(explain_file(data), end="")


def main():
    words = sys.argv[1:]
    by_stretches = "--stretches" in words
    if by_stretches:
        words.remove("--stretches")
    match words:
        case []:
            print(list_file(sys.stdin.buffer.read(), BY_STRETCHES if by_stretches else KWH_BY_KWH), end="")
        case ["--explain", name]:
            explain(name)
        case _:
            sys.exit("usage: hour_file.py [--stretches] [--explain FILE]")


if __name__ == "__main__":
    main()
