#!/usr/bin/env python3
"""Compares the searches with the Rust oracle on fresh random pairs of graphs: listings, endings and step counts.

    tests/compare_listings.py --oracle ORACLE --answer_searches PROGRAM [--list PROGRAM] --seed S --count K

prints how many cases there were and how many differed, and the smallest of those that differ. Each case is run through
Start and Continue by the program `answer_searches`, with one budget for all calls, and, where it is named, by the program `list`.
"""
import random as randoms

from case_lines import MAX_BUDGET, listing_case, maps_and_steps, split_steps
from options import add_programs, add_random_cases, words_of
from oracle import rust_listings
from packed import MAX_LIMIT, Settings, pack_search
from programs import batches, differences, listing_answers, printed_listing
from random_graphs import part_of, random_graph

BATCH = 500


def random_pair(random):
    """A board and a block of its kind: a part of the board, the board renumbered, or any graph."""
    nodes = random.choice([3, 4, 5, 6, 6, 7, 8, 12, 40])
    board = random_graph(random, nodes, random.choice([nodes, 2 * nodes, 4 * nodes]))
    size = random.choice([0, 1, 2, 2, 3, 3, 4, 5, len(board.labels)])
    if len(board.labels) > 8 and size > 3:
        size = 3
    if random.random() < 0.7:
        return board, part_of(random, board, size)
    return board, random_graph(random, min(size, 5), 2 * size)._replace(directed=board.directed)


def random_settings(random, small):
    """Any settings; a search that need not be small gets a limit."""
    switches = [random.random() < 0.5 for _ in range(4)]
    limit = random.choice([None, None, None, random.randint(0, 30), MAX_LIMIT])
    if not small and limit is None:
        limit = random.randint(0, 300)
    return Settings(random.random() < 0.7, *switches, limit)


def random_case(random):
    board, block = random_pair(random)
    settings = random_settings(random, small=len(board.labels) <= 8)
    budget = random.choice([MAX_BUDGET, MAX_BUDGET, random.randint(1, 40)])
    return *pack_search(board, block, settings), budget


def differing(given, cases, rust):
    """The differences of answer_searches and, where it is named, of the listing program."""
    found = differences(cases, rust, listing_answers(given.answer_searches, [listing_case(*case) for case in cases]))
    if given.list:
        printed = [printed_listing(given.list, case[:3]) for case in cases]
        found += differences(cases, [split_steps(listing)[0] for listing in rust], printed)
    return found


def show(difference):
    (board, block, settings, budget), rust, ours = difference
    print(f"g0 {board.hex()}\ng1 {block.hex()}\nsettings {settings.hex()} budget {budget}")
    print(f"the Rust:\n{rust}\nours:\n{ours}")


def main():
    words = words_of(__doc__)
    add_programs(words, "oracle", "answer_searches")
    add_programs(words, "list", required=False)
    add_random_cases(words, 20000)
    given = words.parse_args()
    random = randoms.Random(given.seed)
    found, sizes = [], []
    for size in batches(given.count, BATCH):
        cases = [random_case(random) for _ in range(size)]
        rust = rust_listings(given.oracle, [case[:3] for case in cases])
        found += differing(given, cases, rust)
        sizes += [maps_and_steps(listing) for listing in rust]
    maps, steps = sum(maps for maps, _ in sizes), sum(steps for _, steps in sizes)
    print(f"seed {given.seed}: {given.count} pairs of graphs, {maps} maps, {steps} steps, {len(found)} differ")
    if found:
        show(min(found, key=lambda difference: len(difference.case[0]) + len(difference.case[1])))
        raise SystemExit(1)


if __name__ == "__main__":
    main()
