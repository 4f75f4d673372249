"""Journals and shelves: recording, replaying, cutting, refused fields; keeping and coming back."""

import copy
import itertools
import unittest

from common import SIX_BANKS, RefusalCase, all_clash

from wave_plan import Edit, Name, Plan, Shelf

FIRST_BYTES, ENTRY_BYTES = 5, 11


def field(tag, number, first, second):
    """An entry with its edit number."""
    return tag + b"\x08\x00" + number.to_bytes(4, "little") + first.to_bytes(2, "little") + second.to_bytes(2, "little")


def plain(tag, first, second):
    """An entry without a number."""
    return tag + b"\x04\x00" + first.to_bytes(2, "little") + second.to_bytes(2, "little")


FIRST = b"N\x02\x00\x06\x00"


class JournalTest(RefusalCase):
    def test_a_day_is_recorded_and_replayed(self):
        plan = Plan.read_list("N 6\nK 3 40\n+ 0 4")
        journal = plan.start_journal()
        self.assertEqual(journal, FIRST + field(b"K", 1, 3, 40) + field(b"+", 2, 0, 4))
        edit, journal = plan.add_recorded(journal, 2, 0)
        self.assertEqual(edit, Edit((0, 2), (2,)))
        edit, journal = plan.strike_recorded(journal, 0, 4)
        self.assertEqual(journal[-2 * ENTRY_BYTES :], field(b"+", 3, 2, 0) + field(b"-", 4, 0, 4))
        self.assertEqual(Plan.replay(journal), (plan, 0))
        self.assertEqual(plan.why(4).banks, (0, 4))

    def test_a_journal_cut_at_every_byte(self):
        plans, journal = self.recorded_day()
        for length in range(len(journal) + 1):
            if length < FIRST_BYTES:
                self.refused(13, Plan.replay, journal[:length], place=1)
                continue
            whole, left_over = divmod(length - FIRST_BYTES, ENTRY_BYTES)
            self.assertEqual(Plan.replay(journal[:length]), (plans[whole], left_over))

    def recorded_day(self):
        """The plans after each entry of a journal, and the journal."""
        plan = Plan.open(6)
        journal = plan.start_journal()
        plans = [plan.copy()]
        for a, b in ((0, 4), (0, 2), (2, 3), (1, 3), (1, 5), (2, 5)):
            _, journal = plan.add_recorded(journal, a, b)
            plans.append(plan.copy())
        _, journal = plan.strike_recorded(journal, 2, 5)
        return [*plans, plan], journal

    def test_a_journal_without_numbers_is_continued_without(self):
        journal = FIRST + plain(b"K", 1, 9999) + plain(b"+", 0, 1)
        plan, left_over = Plan.replay(journal)
        self.assertEqual((plan.ranks[1], plan.waves[:2], left_over), (9999, (0, 1), 0))
        recorded = plan.add_recorded(journal, 1, 2)
        self.assertEqual(recorded.journal, journal + plain(b"+", 1, 2))

    def test_refused_fields(self):
        add = field(b"+", 1, 0, 1)
        for fields, number, place in [
            (b"N\x02\x00\x06\x00", 14, 2),
            (field(b"K", 1, 0, 10000), 14, 2),
            (add + plain(b"+", 1, 2), 14, 3),
            (field(b"+", 2, 0, 1), 21, 2),
            (add + field(b"K", 2, 0, 1), 18, 3),
            (field(b"+", 1, 0, 6), 4, 2),
            (field(b"+", 1, 3, 3), 5, 2),
            (add + field(b"+", 2, 1, 0), 6, 3),
            (field(b"-", 1, 0, 1), 7, 2),
        ]:
            self.refused(number, Plan.replay, FIRST + fields, place=place)
        self.refused(13, Plan.replay, b"M\x02\x00\x06\x00", place=1)
        self.refused(1, Plan.replay, b"N\x02\x00\x01\x04", place=1)
        self.refused(9, Plan.replay, FIRST + bytes(60000))

    def test_refused_records_leave_plan_and_journal(self):
        plan = Plan.read_list(SIX_BANKS)
        before, journal = plan.copy(), plan.start_journal()
        for number, function, a, b in [
            (4, plan.add_recorded, 0, 6),
            (5, plan.add_recorded, 1, 1),
            (6, plan.add_recorded, 0, 4),
            (7, plan.strike_recorded, 0, 1),
        ]:
            self.refused(number, function, journal, a, b)
        self.refused(14, plan.add_recorded, journal[:-1], 0, 1)
        self.refused(13, plan.add_recorded, b"", 0, 1)
        for length in (60001, 65536 + len(journal)):
            self.refused(9, plan.add_recorded, journal.ljust(length), 0, 1)
        self.refused(21, plan.add_recorded, FIRST + field(b"+", 7, 0, 1), 0, 1)
        self.refused(18, plan.add_recorded, journal + field(b"K", 7, 0, 1), 0, 1)
        plan.cap = 2
        self.refused(20, plan.strike_recorded, journal, 2, 5)
        plan.cap = 24
        self.assertEqual(plan, before)

    def test_a_full_journal(self):
        most = (60000 - FIRST_BYTES) // ENTRY_BYTES
        full = FIRST + b"".join(field(b"K", number, 0, 3) for number in range(1, most + 1))
        plan, left_over = Plan.replay(full)
        self.assertEqual((plan.ranks[0], left_over), (3, 0))
        self.refused(15, plan.add_recorded, full, 0, 1)
        self.assertEqual(plan.add_recorded(full[:-ENTRY_BYTES], 0, 1).journal[:-ENTRY_BYTES], full[:-ENTRY_BYTES])

    def test_a_plan_with_too_many_clashes_for_a_journal(self):
        plan = Plan.open(960)
        pairs = ((start + a, start + b) for start in range(0, 960, 24) for b in range(24) for a in range(b))
        most = (60000 - FIRST_BYTES) // ENTRY_BYTES
        for a, b in itertools.islice(pairs, most):
            plan.add(a, b)
        self.assertEqual(len(plan.start_journal()), FIRST_BYTES + ENTRY_BYTES * most)
        plan.add(*next(pairs))
        self.refused(15, plan.start_journal)


class ShelfTest(RefusalCase):
    def test_keep_and_come_back(self):
        plan, shelf = Plan.read_list(SIX_BANKS), Shelf.open(6)
        plan.cap = 5
        morning = plan.copy()
        shelf.keep(plan, Name.MORNING)
        plan.strike(2, 5)
        plan.cap = 4
        noon = plan.copy()
        shelf.keep(plan, "NOON")
        self.assertEqual((shelf.come_back(plan, "MORNING "), plan), ((0, 2, 3, 4), morning))
        self.assertEqual((shelf.come_back(plan, Name.NOON), plan), ((0, 2, 3, 4), noon))
        self.assertEqual(shelf.come_back(plan, Name.NOON), ())
        self.assertRaises(LookupError, plan.why)
        self.assertEqual(Plan.replay(plan.start_journal()).plan.waves, plan.waves)

    def test_keeping_again_replaces(self):
        plan, shelf = Plan.open(6), Shelf.open(6)
        shelf.keep(plan, Name.CLOSE)
        plan.add(0, 1)
        shelf.keep(plan, Name.CLOSE)
        plan.strike(0, 1)
        self.assertEqual((shelf.come_back(plan, Name.CLOSE), plan.clashes), ((1,), 1))

    def test_refusals(self):
        plan, shelf = Plan.open(6), Shelf.open(6)
        self.refused(1, Shelf.open, 1025)
        self.assertEqual(type(Shelf.open(1024)), Shelf)
        for name in ("EVENING", "morning", "", "MORNING  ", "NOÖN"):
            self.refused(16, shelf.keep, plan, name)
            self.refused(16, shelf.come_back, plan, name)
        self.refused(17, shelf.come_back, plan, Name.NOON)
        self.refused(2, Shelf.open(5).keep, plan, Name.NOON)
        shelf.keep(plan, Name.MORNING)
        self.refused(3, shelf.come_back, Plan.open(5), Name.MORNING)

    def test_a_copy_is_independent(self):
        for copied in (Shelf.copy, copy.copy, copy.deepcopy):
            plan, shelf = all_clash(3), Shelf.open(3)
            other = copied(shelf)
            other.keep(plan, Name.MORNING)
            self.refused(17, shelf.come_back, plan, Name.MORNING)
            self.assertEqual(other.copy().come_back(plan, Name.MORNING), ())


if __name__ == "__main__":
    unittest.main()
