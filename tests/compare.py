#!/usr/bin/env python3
"""Compares the answer_orders program with the Rust oracle on fresh random graphs, in both node orders.

    tests/compare.py --oracle ORACLE --answer_orders PROGRAM --seed S --count K

prints how many cases there were and how many differed, and the smallest graph that it can make of those that differ.
"""
import random as randoms

from case_lines import MAX_BUFFER, order_line, read_case
from options import add_programs, add_random_cases, words_of
from oracle import rust_orders
from packed import Graph, pack
from programs import batches, differences, line_answers
from random_graphs import random_graph
from shapes import plain

BATCH = 1000


def buffer_for(file, n, call):
    """Mostly exact; at times longer, or one byte short. Fixed by the file, so that a graph can be tried again."""
    chance = randoms.Random(file + call.encode())
    lengths = [n] * 6 + [min(n + chance.randint(1, 128), MAX_BUFFER), max(n - 1, 0)]
    return chance.choice(lengths)


def differing(oracle, answer_orders, graphs):
    """The differences of these graphs; a case is a graph and its line."""
    files = [pack(graph) for graph in graphs]
    cases, expected = [], []
    for graph, file, orders in zip(graphs, files, rust_orders(oracle, files)):
        for call, ids in zip(("byid", "vf2pp"), orders):
            buffer = buffer_for(file, len(ids), call)
            cases.append((graph, read_case(call, buffer, file)))
            expected.append(order_line(ids, buffer))
    return differences(cases, expected, line_answers(answer_orders, [line for _, line in cases]))


def smaller(graph):
    """The graph with an edge, or its last node, left out, and with zero labels."""
    directed, labels, edges = graph
    for i in range(len(edges)):
        yield Graph(directed, labels, edges[:i] + edges[i + 1 :])
    last = len(labels) - 1
    if last >= 0 and all(last not in edge[:2] for edge in edges):
        yield Graph(directed, labels[:-1], edges)
    unlabelled = plain(directed, len(labels), [(a, b) for a, b, _ in edges])
    if unlabelled != graph:
        yield unlabelled


def with_shortest_line(found):
    return min(found, key=lambda difference: len(difference.case[1]))


def smallest(oracle, answer_orders, found):
    """A difference with all left out that can be while some case of the graph still differs."""
    while found:
        difference = with_shortest_line(found)
        found = differing(oracle, answer_orders, list(smaller(difference.case[0])))
    return difference


def main():
    words = words_of(__doc__)
    add_programs(words, "oracle", "answer_orders")
    add_random_cases(words, 20000)
    given = words.parse_args()
    random = randoms.Random(given.seed)
    found = []
    for size in batches(given.count, BATCH):
        found += differing(given.oracle, given.answer_orders, [random_graph(random) for _ in range(size)])
    print(f"seed {given.seed}: {given.count} graphs, {2 * given.count} cases, {len(found)} differ")
    if found:
        (graph, line), rust, ours = smallest(given.oracle, given.answer_orders, found)
        print(f"{graph}\ncase {line}Rust {rust}ours {ours}", end="")
        raise SystemExit(1)


if __name__ == "__main__":
    main()
