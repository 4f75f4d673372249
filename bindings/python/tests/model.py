"""A second planner, from the words of the paper alone: waves from scratch, and the reach of an edit."""


class Model:
    """The clashes of a plan, as unordered pairs, and its ranks; degrees and rule waves by bank; the banks in order."""

    def __init__(self, ranks, pairs=()):
        self.ranks = tuple(ranks)
        self.pairs = frozenset(frozenset(pair) for pair in pairs)
        self.banks = range(len(self.ranks))
        self.degrees = [sum(b in pair for pair in self.pairs) for b in self.banks]
        self.order = sorted(self.banks, key=lambda b: (-self.degrees[b], self.ranks[b], b))
        self.waves = self.rule_waves()

    def clash(self, p, q):
        return frozenset((p, q)) in self.pairs

    def rule_waves(self):
        """By bank: the smallest number that no earlier bank that clashes with it holds."""
        waves = {}
        for b in self.order:
            held = {wave for p, wave in waves.items() if self.clash(p, b)}
            waves[b] = next(wave for wave in range(len(held) + 1) if wave not in held)
        return [waves[b] for b in self.banks]

    def edited(self, a, b):
        """The clash of a and b added if it is not there, else struck."""
        return Model(self.ranks, self.pairs ^ {frozenset((a, b))})


class Reach:
    """What an edit of a and b takes up: the pairs of (ii) and (iii), a bank and the other bank that is the reason."""

    def __init__(self, old, new, a, b):
        was, now = {q: i for i, q in enumerate(old.order)}, {q: i for i, q in enumerate(new.order)}
        adding = new.clash(a, b)
        moved = [q for q in new.order if old.waves[q] != new.waves[q]]
        neighbours = [(q, named) for q in new.banks for named in (a, b) if new.clash(q, named)]
        self.turned = {
            (q, named)
            for q, named in neighbours
            if (was[q] < was[named]) == adding and (now[q] < now[named]) == (not adding)
        }
        self.later = {(q, m) for q in new.banks for m in moved if new.clash(q, m) and now[m] < now[q]}
        taken_up = {a, b} | {q for q, _ in self.turned | self.later}
        self.trail = [q for q in new.order if q in taken_up]
        self.moved = moved


def random_pairs(random, n, clashes):
    """So many clashes of n banks, none with more than 23; fewer where there is no space."""
    degrees, pairs = [0] * n, []
    candidates = [(a, b) for b in range(n) for a in range(b)]
    random.shuffle(candidates)
    for a, b in candidates:
        if len(pairs) < clashes and max(degrees[a], degrees[b]) < 23:
            pairs.append((a, b))
            degrees[a] += 1
            degrees[b] += 1
    return pairs
