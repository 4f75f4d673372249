"""The calls on a plan: the marked examples, what each method answers and how it is refused, and the model."""

import copy
import random
import unittest

from common import SIX_BANKS, RefusalCase, all_clash
from model import Model, Reach, random_pairs

from wave_plan import Day, Edit, Plan, Refusal, Refused, letter


class MarkedExamplesTest(unittest.TestCase):
    def test_m1(self):
        plan = Plan.open(0)
        self.assertEqual((plan.wave_count, plan.waves, plan.sheet()), (0, (), "WAVES 0\nTOTAL 0 0\n"))

    def test_m2_to_m4(self):
        plan = Plan.open(3)
        self.assertEqual((plan.add(1, 2), plan.waves), (Edit((1, 2), (2,)), (0, 0, 1)))
        self.assertEqual((plan.add(0, 1), plan.waves), (Edit((1, 0), (0,)), (1, 0, 1)))
        self.assertEqual((plan.add(0, 2), plan.waves), (Edit((0, 1, 2), (0, 1, 2)), (0, 1, 2)))

    def test_m5_to_m7(self):
        plan = Plan.read_list("N 4\n+ 0 1\n+ 1 2\n+ 2 3")
        self.assertEqual(plan.waves, (1, 0, 1, 0))
        self.assertEqual((plan.add(0, 3), plan.waves), (Edit((0, 1, 2, 3), (0, 1, 2, 3)), (0, 1, 0, 1)))
        self.assertEqual((plan.strike(0, 3), plan.waves), (Edit((1, 2, 0, 3), (1, 2, 0, 3)), (1, 0, 1, 0)))

    def test_m8_and_m9(self):
        plan = Plan.read_list(SIX_BANKS)
        self.assertEqual((plan.waves, plan.wave_count), ((1, 0, 0, 1, 0, 1), 2))
        self.assertEqual((plan.strike(2, 5), plan.waves), (Edit((0, 2, 3, 4, 5), (0, 2, 3, 4)), (0, 0, 1, 2, 1, 1)))
        self.assertEqual(plan.wave_count, 3)


class EditsTest(RefusalCase):
    def test_open(self):
        self.assertEqual((Plan.open(1024).banks, Plan.open(3).waves, Plan.open(3).cap), (1024, (0, 0, 0), 24))
        for banks in (1025, 65535, 65536, 10**9):
            self.refused(1, Plan.open, banks)

    def test_numbers_beyond_16_bits_are_no_banks_and_negative_ones_are_none_at_all(self):
        plan = Plan.open(3)
        self.refused(4, plan.add, 65536, 1)
        self.refused(4, plan.add, 0, 65537)
        self.refused(4, plan.wave_of, 1 << 40)
        for function in (plan.wave_of, plan.neighbours_of, plan.clashes_of, plan.crew_steps, Plan.open):
            self.assertRaises(ValueError, function, -1)
        self.assertRaises(ValueError, plan.add, 0, -1)
        self.assertRaises(ValueError, plan.set_rank, -1, 5)
        self.assertRaises(ValueError, plan.set_rank, 1, -5)
        self.assertEqual(plan, Plan.open(3))

    def test_add_is_refused(self):
        plan = all_clash(24)
        self.refused(4, plan.add, 0, 24)
        self.refused(5, plan.add, 3, 3)
        self.refused(6, plan.add, 1, 0)
        full = Plan.open(25)
        for b in range(1, 24):
            full.add(0, b)
        self.refused(8, full.add, 24, 0)
        self.assertEqual(full.clashes, 23)

    def test_strike_is_refused(self):
        plan = Plan.open(3)
        plan.add(0, 1)
        self.refused(4, plan.strike, 3, 0)
        self.refused(5, plan.strike, 1, 1)
        self.refused(7, plan.strike, 0, 2)
        self.assertEqual(plan.strike(1, 0).trail, (0, 1))

    def test_a_refused_edit_changes_nothing(self):
        plan = Plan.read_list(SIX_BANKS)
        plan.strike(2, 5)
        kept, texts = plan.copy(), [str(explanation) for explanation in plan.why()]
        self.refused(6, plan.add, 0, 4)
        self.assertEqual(plan, kept)
        self.assertEqual([str(explanation) for explanation in plan.why()], texts)

    def test_set_rank(self):
        plan = Plan.open(3)
        plan.set_rank(2, 9999)
        plan.set_rank(0, 7)
        self.assertEqual(plan.ranks, (7, 0, 9999))
        self.refused(4, plan.set_rank, 3, 1)
        self.refused(3, plan.set_rank, 1, 10000)
        self.refused(3, plan.set_rank, 1, 65536)
        plan.add(0, 1)
        self.assertEqual(plan.waves, (1, 0, 0))
        self.refused(18, plan.set_rank, 2, 1)
        self.assertEqual(plan.ranks, (7, 0, 9999))

    def test_cap(self):
        plan = Plan.read_list(SIX_BANKS)
        plan.cap = 2
        self.refused(20, plan.strike, 2, 5)
        self.assertEqual((plan.cap, plan.clashes), (2, 6))
        for cap, number in ((0, 19), (25, 19), (65536 + 3, 19), (1, 20)):
            self.refused(number, setattr, plan, "cap", cap)
        plan.cap = 3
        plan.strike(2, 5)
        self.assertEqual((plan.cap, plan.wave_count), (3, 3))


class QuestionsTest(RefusalCase):
    def test_waves_and_clashes(self):
        plan = Plan.read_list(SIX_BANKS)
        self.assertEqual([plan.wave_of(b) for b in range(6)], list(plan.waves))
        self.assertEqual([plan.wave_by_rule(b) for b in range(6)], list(plan.waves))
        self.assertEqual((plan.clashes_of(2), plan.neighbours_of(2)), ((0, 3, 5), (0, 3, 5)))
        self.assertEqual(list(plan.clash_pairs()), [(0, 2), (0, 4), (1, 3), (1, 5), (2, 3), (2, 5)])
        for function in (plan.wave_of, plan.clashes_of, plan.wave_by_rule):
            self.refused(4, function, 6)
        self.assertEqual(plan.neighbours_of(6), ())

    def test_wave_by_rule_takes_16_banks(self):
        self.assertEqual(Plan.open(16).wave_by_rule(15), 0)
        self.refused(22, Plan.open(17).wave_by_rule, 0)

    def test_wave_bound(self):
        self.assertEqual([all_clash(n).wave_bound() for n in (0, 1, 5, 24)], [0, 1, 5, 24])
        self.assertEqual(Plan.read_list("N 4\n+ 0 1\n+ 1 2\n+ 2 3\n+ 0 3").wave_bound(), 3)

    def test_crews(self):
        plan = Plan.read_list(SIX_BANKS)
        self.assertEqual(plan.crew_steps(2), Day((3, 1, 1, 3, 2, 4), 4))
        self.assertEqual(plan.crew_steps(64), Day((2, 1, 1, 2, 1, 2), 2))
        self.assertEqual((plan.least_crew(4), plan.least_crew(1024)), (2, 1))
        for couriers in (0, 65, 65537):
            self.refused(24, plan.crew_steps, couriers)
        self.refused(24, plan.least_crew, 1025)
        self.refused(25, plan.least_crew, 1)
        self.assertEqual((Plan.open(0).crew_steps(1), Plan.open(0).least_crew(0)), (Day((), 0), 1))

    def test_letters(self):
        plan = all_clash(24)
        self.assertEqual("".join(map(letter, plan.waves)), "ABCDEFGHJKLMNPQRSTUVWXYZ")


class RefusalsTest(RefusalCase):
    def test_a_refusal_says_number_place_question_and_advice(self):
        refused = self.refused(11, Plan.read_list, "N 2\n+ 0", place=2)
        self.assertIs(refused.refusal, Refusal.UNREADABLE_ROW)
        self.assertEqual(
            str(refused),
            "refused 11 at 2: Is the row one of the four forms? No. To do: correct it: one space between parts, at most four digits",
        )
        plain = "refused 5: Are the two banks different? No. To do: name two different banks"
        self.assertEqual(str(Refused(Refusal.SAME_BANK)), plain)

    def test_there_are_27(self):
        self.assertEqual(list(map(int, Refusal)), list(range(1, 28)))


class OwnMemoryTest(unittest.TestCase):
    def test_a_copy_is_independent(self):
        for copied in (Plan.copy, copy.copy, copy.deepcopy):
            plan = Plan.read_list(SIX_BANKS)
            other = copied(plan)
            self.assertEqual(plan, other)
            other.strike(2, 5)
            other.cap = 5
            self.assertEqual((plan.waves, plan.clashes, plan.cap), ((1, 0, 0, 1, 0, 1), 6, 24))
            plan.add(0, 1)
            self.assertEqual(other.waves, (0, 0, 1, 2, 1, 1))

    def test_a_copy_keeps_the_last_edit(self):
        plan = Plan.read_list(SIX_BANKS)
        plan.strike(2, 5)
        other = plan.copy()
        plan.add(2, 5)
        self.assertEqual([e.bank for e in other.why()], [0, 2, 3, 4])

    def test_answers_are_no_views_of_the_memory(self):
        plan = Plan.open(3)
        waves, ranks, rows = plan.waves, plan.ranks, plan.clashes_of(0)
        edit = plan.add(0, 1)
        plan.add(1, 2)
        self.assertEqual((waves, ranks, rows, edit), ((0, 0, 0), (0, 0, 0), (), Edit((0, 1), (1,))))

    def test_equal_plans(self):
        plan = Plan.read_list("N 3\nK 0 5\n+ 0 1")
        self.assertEqual(plan, Plan.read_list("N 3\nK 0 5\n+ 1 0\n+ 1 2\n- 1 2"))
        for rows in ("N 4\nK 0 5\n+ 0 1", "N 3\nK 0 6\n+ 0 1", "N 3\nK 0 5\n+ 0 2"):
            self.assertNotEqual(plan, Plan.read_list(rows))
        capped = plan.copy()
        capped.cap = 3
        self.assertNotEqual(plan, capped)
        self.assertNotEqual(plan, "plan")
        self.assertRaises(TypeError, hash, plan)
        self.assertEqual(repr(capped), "<Plan of 3 banks, 1 clashes, 2 waves, cap 3>")


class ModelTest(unittest.TestCase):
    def test_random_edits(self):
        chance = random.Random(1)
        for n in (2, 5, 9, 14, 26) * 3:
            ranks = [chance.randrange(3) for _ in range(n)]
            plan, model = Plan.open(n), Model(ranks)
            for b, rank in enumerate(ranks):
                plan.set_rank(b, rank)
            for a, b in random_pairs(chance, n, 40):
                self.same_edit(plan, model, a, b)
                model = model.edited(a, b)
                if chance.random() < 0.4:
                    a, b = chance.choice(sorted(map(sorted, model.pairs)))
                    self.same_edit(plan, model, a, b)
                    model = model.edited(a, b)

    def same_edit(self, plan, model, a, b):
        new = model.edited(a, b)
        reach = Reach(model, new, a, b)
        edit = plan.strike(a, b) if model.clash(a, b) else plan.add(a, b)
        self.assertEqual(edit, Edit(tuple(reach.trail), tuple(reach.moved)))
        self.assertEqual(plan.waves, tuple(new.waves))
        self.assertEqual(set(map(frozenset, plan.clash_pairs())), new.pairs)


if __name__ == "__main__":
    unittest.main()
