"""Explanations of edits: all reasons against the model's own (i), (ii) and (iii), who holds the waves, the texts."""

import random
import unittest

from common import SIX_BANKS, RefusalCase
from model import Model, Reach, random_pairs

from wave_plan import Kind, LaterThan, Named, Order, Place, Plan, Turned


def place(model, b):
    return Place(model.degrees[b], model.ranks[b], b)


class RandomEditsTest(unittest.TestCase):
    def test_reasons_and_waves_are_the_models(self):
        chance = random.Random(3)
        seen = {Named: 0, Turned: 0, LaterThan: 0, None: 0}
        for n in (3, 6, 10, 15, 27) * 3:
            plan, model = self.ranked(chance, n)
            for a, b in random_pairs(chance, n, 30):
                model = self.explained(plan, model, (a, b), seen)
                if chance.random() < 0.5:
                    model = self.explained(plan, model, chance.choice(sorted(map(sorted, model.pairs))), seen)
        self.assertGreater(min(seen.values()), 200)

    def ranked(self, chance, n):
        ranks = [chance.randrange(3) for _ in range(n)]
        plan = Plan.open(n)
        for b, rank in enumerate(ranks):
            plan.set_rank(b, rank)
        return plan, Model(ranks)

    def explained(self, plan, old, banks, seen):
        """Makes an edit in both and holds the explanation for every bank to the model. The model afterwards."""
        new = old.edited(*banks)
        reach = Reach(old, new, *banks)
        adding = new.clash(*banks)
        edit = plan.add(*banks) if adding else plan.strike(*banks)
        for b in new.banks:
            why = plan.why(b)
            self.assertEqual((why.bank, why.banks), (b, tuple(banks)))
            self.assertEqual(why.kind, Kind.ADDING if adding else Kind.STRIKING)
            self.assertEqual(why.taken_up, b in edit.trail)
            self.true_reasons(why, reach, old, new)
            self.lowest_free(why.now, b, new)
            self.assertEqual(why.before is not None, b in edit.moved)
            if why.before is not None:
                self.lowest_free(why.before, b, old)
            for kind in {type(reason) for reason in why.reasons} or {None}:
                seen[kind] += 1
        self.assertEqual(plan.why(), tuple(plan.why(b) for b in edit.moved))
        return new

    def true_reasons(self, why, reach, old, new):
        """The reasons are exactly those that hold, and a bank has none exactly if it was not taken up."""
        b = why.bank
        named = [Named()] if b in why.banks else []
        turned = [c for c in why.banks if (b, c) in reach.turned]
        later = [LaterThan(m, old.waves[m], new.waves[m]) for m in reach.moved if (b, m) in reach.later]
        orders = [reason for reason in why.reasons if isinstance(reason, Turned)]
        self.assertEqual(list(why.reasons), [*named, *orders, *later])
        self.assertEqual([order.now.other.bank for order in orders], turned)
        for reason, c in zip(orders, turned):
            self.assertEqual(reason.before, Order(place(old, b), place(old, c)))
            self.assertEqual(reason.now, Order(place(new, b), place(new, c)))
        self.assertEqual(bool(why.reasons), why.taken_up)
        kept = [Order(place(new, b), place(new, c)) for c in why.banks if new.clash(b, c) and c not in turned]
        self.assertEqual(list(why.kept), kept)

    def lowest_free(self, choice, b, model):
        """The wave is b's, and each lower one is held by the earliest bank that clashes with b and is earlier."""
        wave = model.waves[b]
        earlier = [q for q in model.order[: model.order.index(b)] if model.clash(q, b)]
        held = [(lower, next(q for q in earlier if model.waves[q] == lower)) for lower in range(wave)]
        self.assertEqual((choice.wave, list(choice.held)), (wave, held))


class TextsTest(RefusalCase):
    def lines(self, explanation, *lines):
        self.assertEqual(str(explanation).split("\n"), list(lines))

    def test_m9(self):
        plan = Plan.read_list(SIX_BANKS)
        plan.strike(2, 5)
        self.lines(
            plan.why(0),
            "bank 0 was taken up: its order towards bank 2 turned over, and they clash",
            "  order before: bank 2 earlier, with 3 clashes to 2",
            "  order now: bank 0 earlier, with 2 clashes each and the smaller number",
            "  wave before: B, the lowest free: A was held by bank 2",
            "  wave now: A, the lowest free: no earlier clashing bank holds it",
        )
        self.lines(
            plan.why(1),
            "bank 1 was not taken up, nothing of it changed",
            "  the row - 2 5 does not name it",
            "  it does not clash with bank 2",
            "  its order towards bank 5 did not turn over: bank 1 earlier, before and now",
            "  no earlier clashing bank moved",
            "  wave now: A as before, the lowest free: no earlier clashing bank holds it",
        )
        self.lines(
            plan.why(5),
            "bank 5 was taken up: the row - 2 5 names it",
            "  wave now: B as before, the lowest free: A is held by bank 1",
        )
        self.assertEqual(str(plan.why()), "\n".join(str(plan.why(b)) for b in (0, 2, 3, 4)))

    def test_m4(self):
        plan = Plan.read_list("N 3\n+ 1 2\n+ 0 1")
        plan.add(0, 2)
        self.lines(
            plan.why(2),
            "bank 2 was taken up: the row + 0 2 names it",
            "  and it is later than clashing banks that moved: 0 from B to A, 1 from A to B",
            "  wave before: B, the lowest free: A was held by bank 1",
            "  wave now: C, the lowest free: A is held by bank 0, B by bank 1",
        )

    def test_ranks(self):
        plan = Plan.read_list("N 5\nK 0 20\nK 1 10\n+ 0 1\n+ 0 2")
        plan.add(1, 3)
        self.lines(
            plan.why(0),
            "bank 0 was taken up: its order towards bank 1 turned over, and they clash",
            "  order before: bank 0 earlier, with 2 clashes to 1",
            "  order now: bank 1 earlier, with 2 clashes each and the smaller rank, 10 to 20",
            "  and it is later than a clashing bank that moved: 1 from B to A",
            "  wave before: A, the lowest free: no earlier clashing bank held it",
            "  wave now: B, the lowest free: A is held by bank 1",
        )
        self.assertIn("  it clashes with neither of them\n", str(plan.why(4)))

    def test_many_movers(self):
        rows = "".join(f"\n+ {q} {p}" for p in range(6) for q in range(p))
        plan = Plan.read_list(f"N 7\n+ 5 6{rows}")
        plan.strike(6, 5)
        movers = "0 from B to A, 1 from C to B, 2 from D to C and 2 more"
        self.assertIn(f"  and it is later than clashing banks that moved: {movers}\n", str(plan.why(5)))

    def test_no_bank_moved(self):
        plan = Plan.read_list("N 4\n+ 0 1\n+ 2 3")
        plan.add(0, 3)
        self.assertEqual((plan.why(), str(plan.why())), ((), "no bank moved"))

    def test_no_such_bank_and_no_edit(self):
        plan = Plan.read_list(SIX_BANKS)
        self.assertRaisesRegex(LookupError, "no edit has been made", plan.why)
        plan.strike(2, 5)
        self.refused(4, plan.why, 6)
        self.assertRaises(ValueError, plan.why, -1)

    def test_ranks_set_after_the_last_clash_was_struck_leave_no_edit(self):
        plan = Plan.open(2)
        plan.add(0, 1)
        plan.strike(0, 1)
        self.assertEqual(plan.why(1).before.wave, 1)
        plan.set_rank(1, 5)
        self.assertRaises(LookupError, plan.why, 1)


if __name__ == "__main__":
    unittest.main()
