"""Reads an accepted list without K rows from standard input and prints its sheet, coloured once by networkx.

    largest_first.py           the sheet
    largest_first.py version   the versions of networkx and Python

The strategy largest_first sorts the nodes by their degree and keeps nodes of one degree in the graph's order. Here that is the order of their
numbers, as the rule has it.
"""
import platform
import sys

import networkx

LETTERS = "ABCDEFGHJKLMNPQRSTUVWXYZ"


def clashes_of(rows):
    """The graph that the rows lead to."""
    graph = networkx.Graph()
    graph.add_nodes_from(range(int(rows[0].split()[1])))
    for row in rows[1:]:
        letter, *numbers = row.split()
        banks = [int(number) for number in numbers]
        if letter == "+":
            graph.add_edge(*banks)
        elif letter == "-":
            graph.remove_edge(*banks)
        else:
            graph.remove_edges_from(list(graph.edges(banks)))
    return graph


def sheet(graph):
    waves = networkx.greedy_color(graph, strategy="largest_first")
    count = max(waves.values(), default=-1) + 1
    lines = [[] for _ in range(count)]
    for bank in graph:
        lines[waves[bank]].append(f" {bank}")
    rows = [f"{letter}{''.join(line)}\n" for letter, line in zip(LETTERS, lines)]
    return f"WAVES {count}\n{''.join(rows)}TOTAL {len(graph)} {graph.number_of_edges()}\n"


if sys.argv[1:] == ["version"]:
    print(f"networkx {networkx.__version__}, Python {platform.python_version()}")
else:
    sys.stdout.write(sheet(clashes_of(sys.stdin.read().splitlines())))
