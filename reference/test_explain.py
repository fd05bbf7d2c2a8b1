#!/usr/bin/env python3
"""Tests of the explanation by the tables of docs/worked-hours.md. Run: python3 reference/test_explain.py"""
import glob
import os
import re
import subprocess
import sys
import unittest

sys.dont_write_bytecode = True
HERE = os.path.dirname(os.path.abspath(__file__))
ROOT = os.path.dirname(HERE)
sys.path.insert(0, HERE)

import explain
import file_cases
import full_hours
from explain import explain_file
from hour_file import bytes_of, list_file, write_file
from stretches import BY_STRETCHES
from test_hour_file import GUARANTEED, HEADER, READING, WORKED, data_of, worked_before, worked_with

PROGRAM = os.path.join(HERE, "hour_file.py")


def content(*names):
    with open(os.path.join(ROOT, *names), "rb") as file:
        return file.read()


# The explanation as it is printed -----------------------------------------------------------------------------------

ROW = re.compile(r" {4}(\S.*?) {2,}(\S(?:.*?\S)?) {3}(\S.*)")
LISTED = re.compile(r"[UPBH] [CG\d]")


def rows_of(lines):
    """By the name of a figure: its value and how it comes about. Lines that go on are joined."""
    rows = {}
    for line in lines:
        row = ROW.fullmatch(line)
        if row:
            rows[row[1]] = [row[2], row[3]]
        else:
            list(rows.values())[-1][1] += " " + line.strip()
    return rows


def sections(text):
    """The rows of figures under each heading."""
    blocks = [block.splitlines() for block in text.split("\n\n")[1:]]
    return {heading: rows_of(lines) for heading, *lines in blocks}


def record_rows(text):
    """The rows of the first section: place, name and the text behind them."""
    first = text.split("\n\n")[0].splitlines()[1:]
    rows = [re.fullmatch(r" +([\d,]+)  (\D*?)(?: {3,}(.*))?", line) for line in first]
    return [(int(row[1].replace(",", "")), row[2], row[3] or "") for row in rows if row]


def listing_of(text):
    return "".join(f"{heading}\n" for heading in sections(text) if LISTED.match(heading))


def number(text):
    return int(text.replace("−", "-").replace(",", ""))


# The tables of the page ---------------------------------------------------------------------------------------------

HOURS = {"The worked hour": "worked.hour", "Two plants": "two-plants.hour"}


def page_tables():
    """The tables of each hour: (hour, heading, cells of the head, cells of the rows)."""
    hour = heading = ""
    tables, before = [], ""
    for line in content("docs", "worked-hours.md").decode().splitlines():
        if line.startswith("## "):
            hour = line[3:]
        elif line.startswith("### "):
            heading = line[4:]
        elif line.startswith("|"):
            cells = [cell.strip() for cell in line.strip("|").split("|")]
            if not before.startswith("|"):
                tables.append((hour, heading, cells, []))
            elif not line.startswith("|---"):
                tables[-1][3].append(cells)
        before = line
    return [table for table in tables if table[0] in HOURS]


def last_number(cell):
    """The number that a cell comes to: the last that stands in it."""
    return re.findall(r"−?\d[\d,]*(?:\.\d+)?", cell)[-1]


# What figures of the page are named in the explanation, where that is something else. By the hour and the page's name.
RENAMED = {
    ("The worked hour", "limit"): ["limit of C 1"],
    ("The worked hour", "Co"): ["Co of C 1"],
    ("The worked hour", "uncovered"): ["uncovered in group 1", "uncovered in group 2"],
    ("Two plants", "T of plants 1 and 2"): ["plant 1: T", "plant 2: T"],
    ("Two plants", "commitments of buyers 1 and 2"): ["commitments of buyer 1", "commitments of buyer 2"],
    ("Two plants", "P1, P2 of plant 1"): ["plant 1: P1", "plant 1: P2"],
    ("Two plants", "P1, P2 of plant 2"): ["plant 2: P1", "plant 2: P2"],
    ("Two plants", "shares of plant 1"): ["plant 1: share of group 1", "plant 1: share of group 2"],
    ("Two plants", "shares of plant 2"): ["plant 2: share of group 1", "plant 2: share of group 2"],
    ("Two plants", "ΣCo of plant 1"): ["plant 1: ΣCo"],
    ("Two plants", "ΣCo of plant 2"): ["plant 2: ΣCo"],
    ("Two plants", "run support of plant 1"): ["plant 1: run support"],
    ("Two plants", "run support of plant 2"): ["plant 2: run support"],
}

# Rows of the page that no figure's row of the explanation answers to: the split by price, kWh of two units beside each
# other. The explanation has each unit's kWh by price instead; see `test_split_by_price`.
UNMATCHED = [("Two plants", "300"), ("Two plants", "400")]


def row_figures(hour, head, cells):
    """The figures of one row of the page: (where, name, value). `where` is the row's column of a plant or a buyer."""
    name = cells[0]
    if "value" in head:
        names = RENAMED.get((hour, name), name.split(", "))
        return list(zip([""] * len(names), names, cells[head.index("value")].split(", "), strict=True))
    if name == "active energy of its units":
        return [(where, f"active energy of {unit}", str(sum(map(int, terms.split(" + ")))))
                for where, cell in zip(head[1:], cells[1:])
                for unit, terms in re.findall(r"([CG] \d+): (\d+(?: \+ \d+)*)", cell)]
    return [(where, name, last_number(cell)) for where, cell in zip(head[1:], cells[1:])]


def looked_up(found, heading, where, name):
    """The value of a figure that stands under a heading of the page."""
    lines = re.findall(r"`([^`]*)`", heading)
    if where:
        letter = {"plant": "P", "buyer": "B"}[where.split()[0]]
        lines = [line for line in lines if line.startswith(f"{letter} {where.split()[1]} ")]
    places = lines + ["The hour's sums"] if lines else [line for line in found if line.startswith("At closing")]
    if name.startswith("plant "):
        plant, name = name.split(": ")
        places = [f"At closing: {plant}"]
    return next(found[place][name][0] for place in places if name in found[place])


class Pages(unittest.TestCase):
    def test_figures(self):
        """Each row of figures of the page has its value under its name."""
        matched, unmatched = 0, []
        for hour, heading, head, rows in page_tables():
            found = sections(explain_file(content("samples", HOURS[hour])))
            for cells in rows if head[0] == "figure" else ():
                for where, name, value in row_figures(hour, head, cells):
                    printed = looked_up(found, heading, where, name)
                    self.assertEqual(number(printed), number(value), (hour, heading, name))
                    matched += 1
            unmatched += [(hour, cells[0]) for cells in rows if head[0] not in ("figure", "byte")]
        self.assertEqual(unmatched, UNMATCHED)
        self.assertEqual(matched, 133)

    def test_records(self):
        """Each record of the page has its place, its name and its values."""
        zeros = {"nine zeros": ", ".join("0" * 9), "ten zeros": ", ".join("0" * 10)}
        for hour, _, head, rows in page_tables():
            if head[0] == "byte":
                wanted = [(int(place), name, re.sub("nine zeros|ten zeros", lambda found: zeros[found[0]], values))
                          for place, name, values, _ in rows]
                self.assertEqual(record_rows(explain_file(content("samples", HOURS[hour]))), wanted)

    def test_listing(self):
        for name in HOURS.values():
            data = content("samples", name)
            self.assertEqual(listing_of(explain_file(data)), list_file(data))

    def test_headings(self):
        """The lines of the listing in the page's headings are headings of the explanation."""
        for hour, heading, _, _ in page_tables():
            found = sections(explain_file(content("samples", HOURS[hour])))
            for line in re.findall(r"`([^`]*)`", heading):
                self.assertIn(line, found)

    def test_split_by_price(self):
        found = sections(explain_file(content("samples", "two-plants.hour")))["At closing: plant 1"]
        self.assertEqual(found["Co of C 1"], ["46", "40 kWh at 300, 6 kWh at 400"])
        self.assertEqual(found["Co of C 2"], ["20", "20 kWh at 300"])
        self.assertEqual(found["marginal price of group 1"][0], "400")

    def test_within_the_formulas(self):
        """Numbers that stand in the page's formulas and sentences."""
        worked = sections(explain_file(content("samples", "worked.hour")))
        two = sections(explain_file(content("samples", "two-plants.hour")))
        for found, heading, name, value in (
                (worked, "P 1 50 40 10 20 350 9000", "[E / F]", "311"),
                (worked, "P 1 50 40 10 20 350 9000", "[C / D]", "350"),
                (worked, "P 1 50 40 10 20 350 9000", "support at the rate", "7,000"),
                (worked, "P 1 50 40 10 20 350 9000", "readiness", "2,000"),
                (worked, "U C 1 40 130 28000", "r(Com)", "90"),
                (two, "U C 1 46 68 8800", "B by cost", "3,780"), (two, "U C 1 46 68 8800", "B by offer", "3,600"),
                (two, "U C 2 20 29 2550", "B by cost", "750"), (two, "U C 2 20 29 2550", "B by offer", "1,500"),
                (two, "U G 1 19 49 11270", "offer's cost", "9,800"),
                (two, "U G 1 19 49 11270", "saving's part", "1,470"),
                (two, "P 1 100 85 15 24 370 13012", "[E / F]", "370"),
                (two, "P 1 100 85 15 24 370 13012", "[C / D]", "357"),
                (two, "P 1 100 85 15 24 370 13012", "r(S)", "76"), (two, "P 2 35 35 0 10 357 3570", "[E / F]", "298"),
                (two, "P 2 35 35 0 10 357 3570", "[C / D]", "357"),
                (two, "P 1 100 85 15 24 370 13012", "support at the rate", "8,880"),
                (two, "P 1 100 85 15 24 370 13012", "readiness", "4,132"),
                (two, "At closing: plant 1", "uncovered in group 1", "0"),
                (two, "At closing: plant 1", "uncovered in group 2", "15"),
                (two, "At closing: plant 1", "gross of C 1", "60"), (two, "At closing: plant 1", "Co of G 1", "19"),
                (two, "At closing: plant 2", "Co of C 3", "35"), (two, "At closing: plant 2", "Co of C 4", "0"),
                (two, "H 201 135 0", "all T", "135"), (two, "H 201 135 0", "it adds up", "66")):
            self.assertEqual(found[heading][name][0], value, (heading, name))

    def test_formulas(self):
        """The letters' formulas with their numbers, as the page has them."""
        two = sections(explain_file(content("samples", "two-plants.hour")))
        unit, plant, buyer = two["U C 2 20 29 2550"], two["P 1 100 85 15 24 370 13012"], two["B 2 92 72"]
        for rows, name, how in (
                (two["At closing: plant 1"], "limit of C 2", "[30 × 9,500 × 9,800 / 100,000,000]"),
                (two["At closing: plant 1"], "share of group 1", "[100 × 90 / 135]"),
                (unit, "a", "min(max(19, 20), 29)"), (unit, "b2", "min([25 × 9,500 × 9,800 / 100,000,000], 29) ="),
                (unit, "b", "max(19, 23)"), (unit, "C", "kWh 24 to 29 by the raised cost curve: 6 × 300"),
                (unit, "C", "300 = [250 × 12 / 10]"),
                (two["U C 3 35 45 5000"], "C", "10 × 500, where 500 is the ceiling"),
                (two["U C 1 46 68 8800"], "A", "46 × 0 + 3 × 400"), (plant, "rate", "the greater of 370 and 357"),
                (plant, "[E / F]", "[22,620 / 61]"), (plant, "[C / D]", "[23,580 / 66]"),
                (plant, "E", "8,800 + 2,550 + 11,270"),
                (plant, "F", "68 + 29 + 49 − 85"), (plant, "readiness", "[15 × 9,000 × 300 / 9,800]"),
                (plant, "active energy of C 1", "the mark is set (day 1, minute 0), so type 6, 4, is left out"),
                (plant, "active energy of C 2", "the mark is not set (day 2, minute 780)"),
                (buyer, "weight", "[77 × 11,000 / 10,000]"), (buyer, "share up to it", "[201 × 184 / 184]"),
                (buyer, "share", "201 − 109"),
                (two["At closing: plant 2"], "limit of C 4", "0, since it doesn't count"),
                (two["At closing: plant 2"], "gross of C 4", "it is aside"),
                (two["H 201 135 0"], "it adds up", "−6 + 72 + 0 = 66")):
            self.assertIn(how, rows[name][1], name)


# What the samples don't show ----------------------------------------------------------------------------------------

def adjusted(place, value):
    """The worked hour with one of the last three values of the unit's reading."""
    words = READING.split()
    words[place] = f"{value:08x}"
    return sections(explain_file(worked_with(6, " ".join(words))))


class Others(unittest.TestCase):
    def rows(self, found, wanted):
        for name, value, how in wanted:
            self.assertEqual(found[name], [value, how])

    def test_nothing_but_a_commitment(self):
        """A plant without units, and a buyer without a reading: 50 × 1,000 + [50 × 10,000 × 200 / 10,000]."""
        found = sections(explain_file(data_of(*WORKED[:3], *WORKED[4:6], WORKED[8])))
        self.rows(found["At closing: plant 1"], [
            ("share of group 1", "50", "T, since P1 + P2 is 0"),
            ("marginal price of group 1", "none", "no kWh is taken: none is within the limits"),
            ("marginal price of group 2", "none", "no kWh is taken: the share is 0"),
            ("uncovered in group 1", "50", "share less Co: 50 − 0"), ("run support", "50", "uncovered: 50 + 0")])
        self.rows(found["P 1 50 0 50 50 1000 60000"], [
            ("[E / F]", "left out", "since F is not positive"), ("[C / D]", "left out", "since D is not positive"),
            ("rate", "1,000", "the ceiling 1,000, since both quotients are left out"),
            ("support cost", "60,000", "50,000 + 10,000")])
        self.rows(found["B 1 0 -50"], [
            ("share", "0", "0, since W is 0"), ("net purchase", "−50", "share − commitments = 0 − 50"),
            ("weight", "0", "it wasn't read, so use is 0: [use × (10,000 + loss) / 10,000] = [0 × 10,000 / 10,000]")])
        self.rows(found["H 0 50 0"], [("unassigned", "0", "all Bill, since W is 0")])

    def test_uncovered_share(self):
        found = sections(explain_file(content("samples", "worked.hour")))["At closing: plant 1"]
        self.rows(found, [
            ("marginal price of group 1", "300",
             "the dearest kWh within the limits; all are taken, and don't cover the share"),
            ("Co of C 1", "40", "its limit, since the share is over the sum of the limits: 40 kWh at 300")])

    def test_most_rate(self):
        """C is 28,000 and 1,000 × 100,000,000; support costs 20 × 1,000,000,000 and 2,000."""
        found = adjusted(-3, 100_000_000)
        self.rows(found["P 1 50 40 10 20 1000000000 20000002000"], [
            ("[C / D]", "1,250,000,350", "[100,000,028,000 / 80]"),
            ("rate", "1,000,000,000", "the greater of 311 and 1,250,000,350, but at most 1,000,000,000")])

    def test_negative_money(self):
        """C is 28,000 less 1,000 × 29."""
        found = adjusted(-2, 29)
        self.assertEqual(found["The hour's sums"]["C"][0], "−1,000")
        self.rows(found["P 1 50 40 10 20 311 8220"], [
            ("[C / D]", "0", "[0 / 80], as C is below 0"), ("rate", "311", "the greater of 311 and 0")])


# Stored files -------------------------------------------------------------------------------------------------------

def arithmetic(text):
    """What a formula in numbers comes to, or None where the text is none. [ ] drops a fraction."""
    if not re.fullmatch(r"[\d\s,−+×/\[\]()minax]+", text):
        return None
    text = re.sub(r"(?<=\d),(?=\d{3})", "", text)
    for sign, operator in (("−", "-"), ("×", "*"), ("/", "//"), ("[", "("), ("]", ")")):
        text = text.replace(sign, operator)
    return eval(text, {"min": min, "max": max})


def comes_to(how, rows):
    """The number that a row's text comes to, or None where it is in words or a sum that isn't written whole."""
    kwh = re.findall(r"([\d,]+) kWh at", how)
    if kwh:
        return sum(map(number, kwh))
    how = re.sub(r"^(0, since|no kWh).*", "0", how)
    how = re.sub(r"^the ceiling ([\d,]+), since.*", r"\1", how)
    how = re.sub(r"^(\[[CE] / [DF]\]), since the other is left out", lambda found: rows[found[1]][0], how)
    how = re.sub(r"^(T), since.*", lambda found: rows[found[1]][0], how)
    how = re.sub(r"(, where|, as C is| \(P_Act).*", "", how)
    how = re.sub(r"the greater of (\S+) and ([\d,]*\d)", r"max(\1, \2)", how)
    how = re.sub(r"the lesser of (\S+) and ([\d,]*\d)", r"min(\1, \2)", how)
    how = re.sub(r"(.*), but at most (\S+)", r"min(\1, \2)", how)
    return arithmetic(re.split(r" = |: |; ", how)[-1])


# How rows begin that are in words alone. The limit of a unit is 0 where no kWh of it stands behind it.
IN_WORDS = (
    "it counts", "it is aside", "its limit goes by this", "the dearest kWh", "all Bill, since W is 0",
    "its limit, since the share is over the sum of the limits")


def stored():
    for name in sorted(glob.glob(os.path.join(ROOT, "crates", "file_cases", "data", "*.hour"))):
        yield os.path.basename(name), content(name), content(name[:-4] + "want").decode()


class Stored(unittest.TestCase):
    def rows_come_to_their_values(self, text, name):
        for heading, rows in sections(text).items():
            for row, (value, how) in rows.items():
                found = comes_to(how, rows)
                if value in ("none", "left out"):
                    self.assertRegex(how, "no kWh is taken: |since [DF] is not positive", (name, heading, row))
                elif found is None:
                    self.assertTrue(how.startswith(IN_WORDS) or " terms)" in how, (name, heading, row, how))
                else:
                    self.assertEqual(number(value), found, (name, heading, row, how))

    def test_stored_files(self):
        listed = faulty = 0
        for name, data, want in stored():
            text = explain_file(data)
            self.assertLessEqual(max(map(len, text.splitlines())), 110, name)
            if want.startswith("R "):
                self.assertTrue(text.startswith(want), name)
                faulty += 1
            else:
                self.assertEqual(listing_of(text), want, name)
                self.rows_come_to_their_values(text, name)
                listed += 1
        self.assertEqual((listed, faulty), (241, 629))

    def test_full_energies(self):
        for seed in range(3):
            data = write_file(full_hours.full_hour(file_cases.Random(seed)))
            text = explain_file(data)
            self.assertEqual(listing_of(text), list_file(data, BY_STRETCHES))
            self.rows_come_to_their_values(text, seed)


# Faults -------------------------------------------------------------------------------------------------------------

HEADER_VALUES = "1000, 10000, 200, 0, 0 ceiling 1,000, CPF 10,000, BAR 200, saving 0, rate 0"
READING_END = "P_Act 30, 0 in the rest"


def unit(plant, gross, rho, count, *steps):
    """The worked hour with this record of its unit."""
    values = [plant, gross, rho, count, *steps]
    return data_of(*WORKED[:3]) + bytes_of([0x30000000 + len(values), *values]) + data_of(*WORKED[4:])


# A file; its line; and the record, its place, its values, and what broke them. Numbers and places by docs/.
AT_RECORDS = [
    (worked_with(4, "60000003 00000002 00000001 00000032"), "R B 1 84", "5: commit", "84",
     "2, 1, 50 plant 2, buyer 1, volume 50", "there is no plant 2: the hour has 1, and numbers start at 1"),
    (worked_before(5, "80000002 00000003 00000001"), "R B 2 100", "6: put aside", "100", "3, 1 group 3, unit 1",
     "group is 3, neither 1 nor 2"),
    (worked_before(5, "70000003 00000001 00000002 00000005"), "R B 2 100", "6: correct", "100",
     "1, 2, 5 group 1, unit 2, gross 5", "there is no unit 2: its group has 1, and numbers start at 1"),
    (worked_with(7, "d0000002 00000000 000000c8"), "R B 3 180", "8: buyer reading", "180", "0, 200 buyer 0, use 200",
     "there is no buyer 0: the hour has 1, and numbers start at 1"),
    (worked_before(2, *[WORKED[1]] * 32), "R B 4 280", "34: add plant", "280", "0 L 0",
     "it would be number 33, at most 32"),
    (unit(1, 40, 2_001, 1, 9, 5, 9, 5), "R B 5 40", "4: add competitive unit", "40",
     "1, 40, 2001, 1, 9, 5, 9, 5 plant 1, gross 40, ρ 2,001, n 1; offer 9 kWh at 5; cost curve 9 kWh at 5",
     "ρ is 2,001, at most 2,000"),
    (worked_with(1, "20000001 000007d1"), "R B 5 24", "2: add plant", "24", "2001 L 2,001",
     "L is 2,001, at most 2,000"),
    (worked_with(2, "50000001 000007d1"), "R B 5 32", "3: add buyer", "32", "2001 loss 2,001",
     "loss is 2,001, at most 2,000"),
    (worked_with(4, "60000003 00000001 00000001 00000000"), "R B 6 84", "5: commit", "84",
     "1, 1, 0 plant 1, buyer 1, volume 0", "volume is 0, at least 1"),
    (worked_with(7, "d0000002 00000001 02faf081"), "R B 6 180", "8: buyer reading", "180",
     "1, 50000001 buyer 1, use 50,000,001", "use is 50,000,001, at most 50,000,000"),
    (worked_before(5, "60000003 00000001 00000001 01312d00"), "R B 7 100", "6: commit", "100",
     "1, 1, 20000000 plant 1, buyer 1, volume 20,000,000",
     "the plant's commitments would be 20,000,050, at most 20,000,000"),
    (unit(1, 40, 0, 2, 9, 5, 9, 4, 9, 5), "R O 8 40", "4: add competitive unit", "40",
     "1, 40, 0, 2, 9, 5, 9, 4, 9, 5 plant 1, gross 40, ρ 0, n 2; offer 9 kWh at 5, 9 kWh at 4; cost curve 9 kWh at 5",
     "price of step 2 of the offer is 4, at least 5"),
    (unit(1, 40, 0, 0, 9, 5), "R O 8 40", "4: add competitive unit", "40",
     "1, 40, 0, 0, 9, 5 plant 1, gross 40, ρ 0, n 0; offer no step; cost curve 9 kWh at 5",
     "number of steps of the offer is 0, at least 1"),
    (unit(1, 40, 0, 1, 9, 5, 2_000_001, 5), "R O 8 40", "4: add competitive unit", "40",
     "1, 40, 0, 1, 9, 5, 2000001, 5 plant 1, gross 40, ρ 0, n 1; offer 9 kWh at 5; cost curve 2,000,001 kWh at 5",
     "width of step 1 of the cost curve is 2,000,001, at most 2,000,000"),
    (unit(1, 40, 0, 1, 9, 10_000_001, 9, 5), "R O 9 40", "4: add competitive unit", "40",
     "1, 40, 0, 1, 9, 10000001, 9, 5 plant 1, gross 40, ρ 0, n 1; offer 9 kWh at 10,000,001; cost curve 9 kWh at 5",
     "price of step 1 of the offer is 10,000,001, at most 10,000,000"),
    (worked_with(0, HEADER.replace("00002710", "0000c351")), "R B 9 0", "1: header", "0",
     HEADER_VALUES.replace("10000", "50001").replace("10,000", "50,001"), "CPF is 50,001, at most 50,000"),
    (worked_with(6, READING[:-8] + "05f5e101"), "R B 9 104", "7: competitive reading", "104",
     "1, 130, 110, 0, 20, 0, 0, 30, 0, 0, 0, 0, 0, 0, 0, 0, 0, 100000001 unit 1, net 130, accepted 110, UL 20, "
     "P_Act 30, non-cooperation penalty 100,000,001, 0 in the rest",
     "non-cooperation penalty is 100,000,001, at most 100,000,000"),
    (worked_before(5, GUARANTEED[:-1] + "2"), "R B 10 100", "6: add guaranteed unit", "100",
     "1, 5, 5, 0, 2 plant 1, declared gross 5, seasonal gross 5, ρ 0, β 2", "β is 2, at most 1"),
    (worked_with(6, READING.replace("00000014", "0000006f")), "R B 11 104", "7: competitive reading", "104",
     "1, 130, 110, 0, 111, 0, 0, 30, 0, 0, 0, 0, 0, 0, 0, 0, 0, 0 unit 1, net 130, accepted 110, UL 111, "
     + READING_END,
     "UL is 111, at most 110, which is accepted plus lost"),
    (worked_before(5, READING), "R F 16 100", "6: competitive reading", "100",
     "1, 130, 110, 0, 20, 0, 0, 30, 0, 0, 0, 0, 0, 0, 0, 0, 0, 0 unit 1, net 130, accepted 110, UL 20, " + READING_END,
     "it may stand after close and before settle; header is record 1"),
    (data_of(*WORKED) + data_of(WORKED[1]), "R F 16 196", "10: add plant", "196", "0 L 0",
     "it may stand after the header and before close; header is record 1, close is record 6, settle is record 9"),
    (data_of(WORKED[8]), "R F 16 0", "1: settle", "0", "none",
     "it may stand after close and before settle; no header stands before it"),
]

# The same with the words that stand at the place.
AT_WORDS = [
    (data_of(*WORKED)[:96], "R F 15 84", "5: commit", "84", "60000003 00000001 00000001",
     "its head counts 3 values, and it is cut after 2, by the end of the file"),
    (worked_with(4, "60000003 00000001"), "R F 15 84", "5: commit", "84", "60000003 00000001",
     "its head counts 3 values, and it is cut after 1, by a head"),
    (worked_before(4, "00000007"), "R F 15 84", "5: no record", "84", "00000007",
     "its kind is 0: a value stands where a head should"),
    (worked_before(4, "f0000000"), "R F 15 84", "5: no record", "84", "f0000000", "kind is 15, at most 14"),
    (worked_with(1, "20000002 00000000 00000000"), "R F 15 24", "2: add plant", "24", "20000002 00000000 00000000",
     "its head counts 2 values, and a record of its kind has 1"),
    (unit(1, 40, 0, 0, 9), "R F 15 40", "4: add competitive unit", "40",
     "30000005 00000001 00000028 00000000 00000000 00000009", "its head counts 5 values, an odd number"),
    (unit(1, 40, 0, 2, 9, 5), "R F 15 40", "4: add competitive unit", "40",
     "30000006 00000001 00000028 00000000 00000002 00000009 00000005", "count is 6, at least 8"),
]

# A file; its line; its length; and what more is said of it.
AT_NO_RECORD = [
    (data_of(*WORKED)[:100], "R F 12 100", "100 bytes", "records", "5; the last is commit, at byte 84"),
    (data_of(*WORKED)[:-1], "R F 14 0", "195 bytes", "since", "the length is 3 over a multiple of four"),
    (b"\0" * 65_540, "R F 14 0", "65,540 bytes", "since", "length is 65,540, at most 65,536"),
]


def fault_rows(text):
    """The line of a fault, and its rows by name."""
    line, *lines = text.splitlines()
    rows = {}
    for part in lines:
        name, how = part[4:].split(" ", 1) if part[4] != " " else ("", part)
        name = name or list(rows)[-1]
        rows[name] = f"{rows.get(name, '')} {how.strip()}".strip()
    return line, rows


class Faults(unittest.TestCase):
    def test_at_records(self):
        for key, cases in (("values", AT_RECORDS), ("words", AT_WORDS)):
            for data, line, record, place, values, since in cases:
                found, rows = fault_rows(explain_file(data))
                self.assertEqual(found, line)
                layer, number_of_fault = line.split()[1:3]
                self.assertTrue(rows.pop("fault").startswith(f"{number_of_fault} of layer {layer}, "), line)
                self.assertEqual(rows, {"record": record, "place": f"byte {place}", key: values, "since": since})

    def test_at_no_record(self):
        for data, line, length, name, how in AT_NO_RECORD:
            found, rows = fault_rows(explain_file(data))
            self.assertEqual((found, rows["length"], rows[name]), (line, length, how))

    def test_every_number(self):
        lines = [case[1] for case in AT_RECORDS + AT_WORDS + AT_NO_RECORD]
        self.assertEqual({int(line.split()[2]) for line in lines}, set(range(1, 17)) - {13})
        self.assertEqual(set(explain.FAULTS), set(range(1, 17)) - {13})

    def test_several_values(self):
        """All values that the row found are named."""
        data = worked_with(0, "10000005 00989681 0000c351 000000c8 00000000 00989681")
        since = [line.split(maxsplit=1)[1] for line in explain_file(data).splitlines() if line.startswith("    since")]
        self.assertEqual(since, ["ceiling is 10,000,001, at most 10,000,000", "CPF is 50,001, at most 50,000",
                                 "rate is 10,000,001, at most 10,000,000"])


# The program --------------------------------------------------------------------------------------------------------

def run(*words, given=b""):
    found = subprocess.run([sys.executable, PROGRAM, *words], input=given, capture_output=True)
    return found.returncode, found.stdout.decode(), found.stderr.decode()


class Program(unittest.TestCase):
    SAMPLE = os.path.join(ROOT, "samples", "two-plants.hour")

    def test_explains(self):
        want = 0, explain_file(content("samples", "two-plants.hour")), ""
        self.assertEqual(run("--explain", self.SAMPLE), want)
        self.assertEqual(run("--stretches", "--explain", self.SAMPLE), want)
        self.assertEqual(run("--explain", self.SAMPLE, "--stretches"), want)

    def test_reads_standard_input_without_it(self):
        data = content("samples", "two-plants.hour")
        for words in ((), ("--stretches",)):
            self.assertEqual(run(*words, given=data), (0, list_file(data), ""))
            self.assertEqual(run(*words, given=data[:100]), (0, "R F 12 100\n", ""))

    def test_missing_file(self):
        status, printed, error = run("--explain", os.path.join(ROOT, "samples", "none.hour"))
        self.assertEqual((status, printed, len(error.splitlines())), (1, "", 1))
        self.assertIn("none.hour", error)

    def test_wrong_arguments(self):
        for words in (("--explain",), ("--explain", "--stretches"), (self.SAMPLE,), ("--explain", self.SAMPLE, "more"),
                      ("--stretches", "--stretches")):
            self.assertEqual(run(*words), (1, "", "usage: hour_file.py [--stretches] [--explain FILE]\n"))


if __name__ == "__main__":
    unittest.main()
