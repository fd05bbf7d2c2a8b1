#!/usr/bin/env python3
"""Tests of the second calculation of hour files by docs/hour-file.md. Run: python3 reference/test_hour_file.py"""
import os
import sys
import unittest

sys.dont_write_bytecode = True
sys.path.insert(0, os.path.dirname(os.path.abspath(__file__)))

import file_cases
import hour
import told_apart
from hour_file import Record, bytes_of, list_file, pieces, write_file

# The words of the worked hour's records, as docs/hour-file.md has them.
HEADER = "10000005 000003e8 00002710 000000c8 00000000 00000000"
PLANT = "20000001 00000000"
BUYER = "50000001 00000000"
UNIT = "3000000a 00000001 00000028 00000000 00000002 00000064 0000012c 00000064 000001f4 00000064 0000015e"
COMMIT = "60000003 00000001 00000001 00000032"
CLOSE = "a0000000"
READING = ("b0000012 00000001 00000082 0000006e 00000000 00000014 00000000 00000000 0000001e"
           + " 00000000" * 10)
BUYER_READING = "d0000002 00000001 000000c8"
SETTLE = "e0000000"

WORKED = [HEADER, PLANT, BUYER, UNIT, COMMIT, CLOSE, READING, BUYER_READING, SETTLE]
# Where its records begin, and where the file ends.
PLACES = [0, 24, 32, 40, 84, 100, 104, 180, 192, 196]
LISTING = "U C 1 40 130 28000\nP 1 50 40 10 20 350 9000\nB 1 130 80\nH 130 50 0\n"

# An entry of a guaranteed unit, which the worked hour lacks.
GUARANTEED = "40000005 00000001 00000005 00000005 00000000 00000000"


def data_of(*records):
    return bytes_of([int(word, 16) for record in records for word in record.split()])


def worked_with(place, *records):
    """The worked hour with other records in place of one."""
    return data_of(*WORKED[:place], *records, *WORKED[place + 1:])


def worked_before(place, *records):
    return data_of(*WORKED[:place], *records, *WORKED[place:])


class HourFiles(unittest.TestCase):
    def says(self, data, line):
        self.assertEqual(list_file(data), line + "\n")


class WorkedHour(HourFiles):
    def test_bytes_and_listing(self):
        data = data_of(*WORKED)
        self.assertEqual(len(data), 196)
        self.assertEqual(data[:4], b"\x05\x00\x00\x10")
        self.assertEqual(list_file(data), LISTING)

    def test_spelling(self):
        records = [Record(1, (1_000, 10_000, 200, 0, 0)), Record(2, (0,)), Record(5, (0,)),
                   Record(3, (1, 40, 0, 2, 100, 300, 100, 500, 100, 350)), Record(6, (1, 1, 50)), Record(10, ()),
                   Record(11, (1, 130, 110, 0, 20, 0, 0, 30) + (0,) * 10), Record(13, (1, 200)), Record(14, ())]
        self.assertEqual(write_file(records), data_of(*WORKED))
        self.assertEqual(records, file_cases.WORKED)

    def test_nothing_entered(self):
        self.assertEqual(list_file(data_of(HEADER, CLOSE, SETTLE)), "H 0 0 0\n")

    def test_cut_at_every_word(self):
        data = data_of(*WORKED)
        for end in range(0, 196, 4):
            begun = max(place for place in PLACES if place <= end)
            self.says(data[:end], f"R F 12 {end}" if begun == end else f"R F 15 {begun}")

    def test_guaranteed_units_by_the_tariff(self):
        header = "10000005 000003e8 00002710 000000c8 00000007 00000003"
        entry = "40000005 00000001 00000064 00000064 00000000 00000001"
        reading = "c000000a 00000001 00000065" + " 00000000" * 8
        # Bill 101 at the tariff 3 and 7 for transmission saved: 1,010. No commitments: F and D are 101, the rate is 10.
        self.assertEqual(list_file(data_of(header, PLANT, entry, CLOSE, reading, SETTLE)),
                         "U G 1 0 101 1010\nP 1 0 0 0 0 10 0\nH 101 0 101\n")


class Samples(HourFiles):
    def sample(self, name):
        with open(os.path.join(os.path.dirname(os.path.abspath(__file__)), "..", "samples", name), "rb") as file:
            return file.read()

    def test_worked_hour(self):
        self.assertEqual(self.sample("worked.hour"), data_of(*WORKED))

    def test_two_plants(self):
        data = self.sample("two-plants.hour")
        self.assertEqual(data, write_file(file_cases.TWO_PLANTS))
        # The figures as docs/worked-hours.md has them.
        self.assertEqual(list_file(data), "U C 1 46 68 8800\nU C 2 20 29 2550\nU C 3 35 45 5000\nU C 4 0 10 960\n"
                         "U G 1 19 49 11270\nP 1 100 85 15 24 370 13012\nP 2 35 35 0 10 357 3570\n"
                         "B 1 109 -6\nB 2 92 72\nH 201 135 0\n")


class FaultsOfForm(HourFiles):
    def test_empty_file(self):
        self.says(b"", "R F 12 0")

    def test_length(self):
        for data in (b"\0", data_of(*WORKED)[:-1], data_of(*WORKED) + b"\0", b"\0" * 65_540, b"\0" * 65_537):
            self.says(data, "R F 14 0")
        self.says(b"\0" * 65_536, "R F 15 0")

    def test_length_comes_first(self):
        self.says(data_of(SETTLE) + b"\0", "R F 14 0")
        self.says(worked_with(1, "20000001 000007d1")[:-1], "R F 14 0")

    def test_longest_file(self):
        # 16,384 words: 49 and 5,445 readings of the buyer.
        data = worked_before(8, *[BUYER_READING] * 5_445)
        self.assertEqual(len(data), 65_536)
        self.assertEqual(list_file(data), LISTING)
        self.says(data + b"\0\0\0\0", "R F 14 0")

    def test_cut_by_a_head(self):
        self.says(data_of("10000005 000003e8 00002710", *WORKED[1:]), "R F 15 0")
        self.says(worked_with(4, "60000003 00000001"), "R F 15 84")
        self.says(worked_with(6, READING.replace("00000082", "20000000")), "R F 15 104")

    def test_kinds_without_a_record(self):
        self.says(worked_before(4, "f0000000"), "R F 15 84")
        self.says(worked_before(4, "00000000"), "R F 15 84")
        self.says(worked_before(0, "00000000"), "R F 15 0")
        self.says(data_of("f0000001 00000000"), "R F 15 0")

    def test_counts(self):
        self.says(worked_with(1, "20000000"), "R F 15 24")
        self.says(worked_with(1, "20000002 00000000 00000000"), "R F 15 24")
        self.says(worked_with(5, "a0000001 00000000"), "R F 15 100")
        self.says(worked_with(8, "e0000001 00000000"), "R F 15 192")
        self.says(worked_with(0, HEADER.replace("10000005", "10000004")), "R F 15 0")

    def test_counts_of_a_unit(self):
        for record in ("30000000", "30000002 00000001 00000028", "30000003 00000001 00000028 00000000",
                       "30000005 00000001 00000028 00000000 00000000 00000009",
                       "30000004 00000001 00000028 00000000 00000001",
                       "30000006 00000001 00000028 00000000 00000002 00000009 00000005",
                       "30000006 00000001 00000028 00000000 0fffffff 00000009 00000005",
                       "3000000a 00000001 00000028 00000000"):
            self.says(worked_with(3, record), "R F 15 40")

    def test_surplus_value(self):
        self.says(worked_with(1, "20000001 00000000 00000000"), "R F 15 32")
        self.says(worked_with(5, "a0000000 00000000"), "R F 15 104")
        # The record's own call comes first.
        self.says(worked_with(1, "20000001 000007d1 00000000"), "R B 5 24")

    def test_order(self):
        self.says(data_of(PLANT), "R F 16 0")
        self.says(data_of(SETTLE), "R F 16 0")
        self.says(worked_before(1, HEADER), "R F 16 24")
        self.says(worked_before(5, READING), "R F 16 100")
        self.says(worked_before(5, SETTLE), "R F 16 100")
        self.says(worked_before(6, PLANT), "R F 16 104")
        self.says(worked_before(6, CLOSE), "R F 16 104")
        self.says(worked_before(6, GUARANTEED), "R F 16 104")
        for kind in range(1, 15):
            one = file_cases.BASE[file_cases.place_of(file_cases.BASE, kind)]
            self.says(data_of(*WORKED) + write_file([one]), "R F 16 196")

    def test_after_settle(self):
        self.says(data_of(*WORKED, "00000000"), "R F 15 196")
        self.says(data_of(*WORKED, "20000001"), "R F 15 196")
        self.says(data_of(*WORKED, PLANT), "R F 16 196")
        self.says(data_of(*WORKED, SETTLE, "00000000"), "R F 16 196")

    def test_order_of_checks(self):
        # An early refusal of the book and a later record that is none, and the other way round.
        self.says(worked_before(2, "20000001 000007d1", "f0000000"), "R B 5 32")
        self.says(worked_before(2, "f0000000", "20000001 000007d1"), "R F 15 32")
        self.says(worked_before(2, "20000001 000007d1", HEADER), "R B 5 32")
        self.says(worked_before(2, HEADER, "20000001 000007d1"), "R F 16 32")
        self.says(data_of(HEADER, "20000001 000007d1"), "R B 5 24")
        # Out of place and refused is 16, out of place and with a wrong count is 15.
        self.says(worked_before(6, "20000001 000007d1"), "R F 16 104")
        self.says(worked_before(6, "20000002 00000000 00000000"), "R F 15 104")

    def test_pieces(self):
        self.assertEqual(pieces([7, 0x20000001, 5, 6, 0x60000003, 1, 0xa0000000]),
                         [(0, [7]), (4, [0x20000001, 5]), (12, [6]), (16, [0x60000003, 1]), (24, [0xa0000000])])
        self.assertEqual(pieces([]), [])


class StepLists(HourFiles):
    def unit(self, count, values, line):
        """The worked unit with another count of offer steps and other steps."""
        words = [0x30000004 + len(values), 1, 40, 0, count, *values]
        self.says(data_of(*WORKED[:3]) + bytes_of(words) + data_of(*WORKED[4:]), line)

    def test_numbers_of_steps(self):
        self.unit(0, [], "R O 8 40")
        self.unit(0, [9, 5], "R O 8 40")
        self.unit(1, [9, 5], "R O 8 40")
        self.unit(11, [9, 5] * 12, "R O 8 40")
        self.unit(1, [9, 5] * 12, "R O 8 40")

    def test_widths_and_prices(self):
        self.unit(1, [0, 5, 9, 5], "R O 8 40")
        self.unit(1, [9, 5, 2_000_001, 5], "R O 8 40")
        self.unit(2, [9, 5, 9, 4, 9, 5], "R O 8 40")
        self.unit(1, [9, 10_000_001, 9, 5], "R O 9 40")
        self.unit(1, [9, 5, 9, 10_000_001], "R O 9 40")
        self.unit(1, [9, 10_000_001, 0, 5], "R O 8 40")

    def test_the_book_first(self):
        for plant, gross, rho, line in ((2, 40, 0, "R B 1 40"), (1, 40, 2_001, "R B 5 40"),
                                        (1, 2_000_001, 0, "R B 6 40"), (1, 40, 0, "R O 8 40")):
            words = [0x30000004, plant, gross, rho, 0]
            self.says(data_of(*WORKED[:3]) + bytes_of(words) + data_of(*WORKED[4:]), line)


class FaultsOfTheBook(HourFiles):
    def test_header(self):
        self.says(worked_with(0, HEADER.replace("00002710", "0000c351")), "R B 9 0")
        self.assertEqual(list_file(worked_with(0, HEADER.replace("00002710", "0000c350"))).split()[0], "U")

    def test_entries(self):
        self.says(worked_with(4, "60000003 00000002 00000001 00000032"), "R B 1 84")
        self.says(worked_with(4, "60000003 00000001 00000002 00000032"), "R B 3 84")
        self.says(worked_with(4, "60000003 00000001 00000001 00000000"), "R B 6 84")
        # 20,000,000 after 50.
        self.says(worked_before(5, "60000003 00000001 00000001 01312d00"), "R B 7 100")
        self.says(worked_before(5, "70000003 00000001 00000002 00000005"), "R B 2 100")
        self.says(worked_before(5, "80000002 00000003 00000001"), "R B 2 100")
        self.says(worked_before(5, "90000002 00000001 00000000"), "R B 2 100")
        self.says(worked_before(5, GUARANTEED[:-1] + "2"), "R B 10 100")
        # The 33rd plant.
        self.says(worked_before(2, *[PLANT] * 32), "R B 4 280")

    def test_full_commitments(self):
        self.says(worked_before(5, *["60000003 00000001 00000001 00000001"] * 768), f"R B 4 {100 + 767 * 16}")

    def test_readings(self):
        self.says(worked_with(6, READING.replace("00000001", "00000002")), "R B 2 104")
        self.says(worked_with(6, READING.replace("00000082", "001e8481")), "R B 6 104")
        # UL 111 with 110 accepted.
        self.says(worked_with(6, READING.replace("00000014", "0000006f")), "R B 11 104")
        self.says(worked_with(6, READING[:-8] + "05f5e101"), "R B 9 104")
        self.says(worked_with(7, "d0000002 00000002 000000c8"), "R B 3 180")
        self.says(worked_with(7, "d0000002 00000001 02faf081"), "R B 6 180")


class Cases(unittest.TestCase):
    def test_base_hour(self):
        self.assertEqual(sorted(record.kind for record in file_cases.BASE), list(range(1, 15)))

    def test_largest_hour(self):
        self.assertEqual(len(write_file(file_cases.largest_hour(file_cases.Random(1)))), 55_328)

    def test_drawn_hours_are_lawful(self):
        for seed in range(100):
            data = write_file(file_cases.lawful_hour(file_cases.Random(seed)))
            self.assertEqual(list_file(data).splitlines()[-1][0], "H", seed)

    def test_changed_bytes(self):
        data = data_of(*WORKED)
        for place, changed in enumerate(file_cases.changed_bytes(file_cases.Random(1))):
            self.assertEqual([at for at in range(196) if changed[at] != data[at]], [place])
        self.assertEqual(place, 195)

    def test_hours_given_as_calls(self):
        for case in (told_apart.four_counts(), told_apart.orders()):
            data = write_file(file_cases.records_of_hour(case))
            self.assertEqual(list_file(data), hour.listing(hour.settle_hour(**case)[1]))

    def test_stored_files(self):
        files = file_cases.stored_files()
        self.assertGreaterEqual(len(files), 320)
        self.assertEqual(sum(len(data) > file_cases.MOST_STORED for data in files), 3)


if __name__ == "__main__":
    unittest.main()
