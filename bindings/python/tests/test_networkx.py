"""Graphs of networkx: plans from and to them, and waves against its largest_first colouring.

Where networkx is missing these tests are skipped, or fail if WAVE_PLAN_TEST_NETWORKX=1 is set.
"""

import random
import unittest
from unittest import mock

from common import SIX_BANKS, RefusalCase, missing
from model import random_pairs

from wave_plan import Plan


def coloured(graph):
    """The waves of largest_first. It sorts by degree, descending, and keeps the nodes' order among equal ones."""
    import networkx

    return networkx.greedy_color(graph, strategy="largest_first")


@unittest.skipIf(missing("networkx"), "networkx is not there")
class NetworkxTest(RefusalCase):
    def random_graphs(self):
        import networkx

        chance = random.Random(29)
        for n in [*range(12), 25, 40, 70, 120] * 3:
            graph = networkx.Graph()
            graph.add_nodes_from(range(n))
            graph.add_edges_from(random_pairs(chance, n, chance.randrange(12 * n + 1)))
            yield chance, graph

    def test_waves_are_those_of_largest_first(self):
        most = 0
        for _, graph in self.random_graphs():
            plan, nodes = Plan.from_networkx(graph)
            self.assertEqual(nodes, list(graph))
            self.assertEqual(dict(enumerate(plan.waves)), coloured(graph))
            most = max(most, plan.wave_count)
        self.assertGreater(most, 6)

    def test_ranks_are_the_order_of_nodes(self):
        import networkx

        for chance, graph in self.random_graphs():
            for node in graph:
                graph.nodes[node]["street"] = chance.randrange(5)
            sorted_graph = networkx.Graph()
            sorted_graph.add_nodes_from(sorted(graph, key=lambda node: graph.nodes[node]["street"]))
            sorted_graph.add_edges_from(graph.edges)
            plan, _ = Plan.from_networkx(graph, rank="street")
            self.assertEqual(dict(enumerate(plan.waves)), coloured(sorted_graph))

    def test_after_edits_too(self):
        chance = random.Random(7)
        plan = Plan.open(60)
        for a, b in random_pairs(chance, 60, 400):
            plan.add(a, b)
            if chance.random() < 0.5:
                plan.strike(*chance.choice(list(plan.clash_pairs())))
            if plan.clashes % 10 == 0:
                self.assertEqual(dict(enumerate(plan.waves)), coloured(plan.to_networkx()))

    def test_nodes_may_be_anything(self):
        import networkx

        graph = networkx.Graph([("lift", "bay"), ("bay", ("key", 3))])
        plan, nodes = Plan.from_networkx(graph)
        self.assertEqual((nodes, plan.waves), (["lift", "bay", ("key", 3)], (1, 0, 1)))
        self.assertRaises(LookupError, plan.why)

    def test_there_and_back(self):
        plan = Plan.read_list(SIX_BANKS.replace("N 6", "N 6\nK 4 17"))
        graph = plan.to_networkx()
        self.assertEqual(graph.nodes[4], {"wave": 0, "rank": 17})
        self.assertEqual(Plan.from_networkx(graph, rank="rank"), (plan, [0, 1, 2, 3, 4, 5]))
        self.assertNotEqual(Plan.from_networkx(graph)[0], plan)

    def test_refused_graphs(self):
        import networkx

        self.refused(1, Plan.from_networkx, networkx.empty_graph(1025))
        self.refused(5, Plan.from_networkx, networkx.Graph([(0, 0)]))
        self.refused(6, Plan.from_networkx, networkx.MultiGraph([(0, 1), (0, 1)]))
        self.refused(6, Plan.from_networkx, networkx.DiGraph([(0, 1), (1, 0)]))
        self.refused(8, Plan.from_networkx, networkx.star_graph(24))
        self.assertRaises(TypeError, Plan.from_networkx, [(0, 1)])


class WithoutNetworkxTest(unittest.TestCase):
    def test_the_error_says_what_is_missing(self):
        with mock.patch.dict("sys.modules", {"networkx": None}):
            for function in (lambda: Plan.from_networkx(object()), Plan.open(3).to_networkx):
                self.assertRaisesRegex(ImportError, "need the package networkx, which is not there", function)

    def test_the_package_does_without(self):
        with mock.patch.dict("sys.modules", {"networkx": None}):
            self.assertEqual(Plan.read_list("N 2\n+ 0 1").sheet(), "WAVES 2\nA 0\nB 1\nTOTAL 2 1\n")


if __name__ == "__main__":
    unittest.main()
