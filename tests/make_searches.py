#!/usr/bin/env python3
"""Writes the fixed list of searches, crates/answer_searches/stdin and crates/answer_searches/stdout.

    tests/make_searches.py ORACLE

Listings and their steps are the Rust's; what the Rust has no counterpart for (refusals, pauses, records, Check) is the
model's of search_model.py, which is first compared with the Rust on every listing of the list.
"""
import itertools
import random as randoms

from case_lines import MAX_BUDGET, PROJECT, line, listing_answer, listing_case, map_line, split_steps, write_list
from expected import checked, continued, started
from options import oracle_alone
from oracle import rust_listings
from packed import MAX_LIMIT, Graph, Settings, pack, pack_search, pack_settings, read_files
from search_model import MOST_ACCEPTED, OUTER, UNWIND, Record, Search, inner
from shapes import grid, path, plain, ring

PATH3 = plain(False, 3, path(3))
EDGE = plain(False, 2, path(2))
TRIANGLE = plain(False, 3, [(0, 1), (1, 2), (0, 2)])
CYCLE3 = plain(True, 3, ring(3))
TWO_EDGES = plain(True, 2, [(0, 1), (0, 1)])
ARC = plain(True, 2, path(2))
LOOP = plain(True, 1, [(0, 0)])
FIVE_SEVEN = plain(True, 2, [(0, 1, 5), (0, 1, 7)])

# five bytes: both orderings that there are not, the spare bit, a limit above its largest, a limit and not limited
REFUSED_SETTINGS = [bytes.fromhex(each) for each in ("8000000000", "c000000000", "4100000000", "42ffffffff", "4000000001")]


def small_graphs():
    """Document 01's "Small graphs on each side", the starred ones too."""
    labelled = [plain(True, 2, [(0, 1, label)]) for label in (7, 6)]
    greater = Settings()
    yield from ((PATH3, EDGE, greater._replace(limit=limit)) for limit in (None, 7, 6, 1))
    yield PATH3, EDGE, greater._replace(vf2pp=True)
    for directed in (False, True):
        yield from ((plain(directed, 3, []), plain(directed, 0, []), greater._replace(limit=limit)) for limit in (None, 0))
    yield from ((TRIANGLE, PATH3, greater._replace(induced=induced)) for induced in (False, True))
    yield from ((TWO_EDGES, ARC, Settings(larger, False, induced)) for larger, induced in [(1, 0), (1, 1), (0, 0)])
    yield from ((FIVE_SEVEN, block, greater._replace(edge_labels=True)) for block in labelled)
    yield from ((LOOP, plain(True, 1, []), greater._replace(induced=induced)) for induced in (False, True))
    yield CYCLE3, CYCLE3, Settings(False, False, True)
    yield from ((plain(directed, 3, []), plain(directed, 2, []), greater) for directed in (False, True))


def pieces(directed):
    """Boards and blocks: loops, parallel edges with equal and different labels, several components, blocks that are not there."""
    board = Graph(
        directed,
        [1, 2, 1, 2, 3, 3, 1],
        [(0, 1, 1), (1, 2, 2), (2, 3, 1), (3, 0, 2), (0, 1, 1), (0, 1, 2), (2, 2, 3), (4, 4, 3), (4, 5, 1), (5, 4, 1), (6, 0, 1)],
    )
    yield board, Graph(directed, [1, 2], [(0, 1, 1)])
    yield board, Graph(directed, [1, 2], [(0, 1, 1), (0, 1, 2)])
    yield board, Graph(directed, [1, 2], [(0, 1, 1), (0, 1, 1)])
    yield board, Graph(directed, [3], [(0, 0, 3)])
    yield board, Graph(directed, [1, 2, 3], [(0, 1, 1)])
    yield board, Graph(directed, [1, 2, 3, 3], [(0, 1, 1), (2, 3, 1)])
    yield board, Graph(directed, [7, 7], [(0, 1, 9)])
    yield board, board


def switches():
    return [Settings(*each) for each in itertools.product((True, False), repeat=5)]


def some_pieces(random, chance):
    """All pieces, with some of the settings."""
    for directed in (False, True):
        for board, block in pieces(directed):
            yield from ((board, block, each) for each in switches() if random.random() < chance)


def large(random):
    """N 128 with E 1,024, and 128 nodes in a grid."""
    for directed in (False, True):
        rings = [(v, (v + jump) % 128) for jump in range(1, 9) for v in range(128)]
        labels = [random.randrange(4096) for _ in range(128)]
        board = Graph(directed, labels, [(a, b, random.randrange(64)) for a, b in rings])
        block = Graph(directed, labels[3:8], [(a - 3, b - 3, l) for a, b, l in board.edges if 3 <= a < 8 and 3 <= b < 8])
        yield board, block, Settings(True, False, False, True, True)
        yield board, block, Settings(True, True, True, True, True)
        yield board, board, Settings(False, True, True, True, True)
    yield plain(False, 128, []), plain(False, 1, []), Settings()
    yield plain(False, 128, grid(128, 16)), plain(False, 4, ring(4)), Settings(limit=400)
    yield plain(False, 128, ring(128)), plain(False, 128, ring(128)), Settings(False, True, limit=300)


def listings(random):
    yield from small_graphs()
    yield from some_pieces(random, 0.75)
    for board, block in [(PATH3, EDGE), (TRIANGLE, PATH3), (CYCLE3, CYCLE3)]:
        yield from ((board, block, Settings(limit=limit)) for limit in [*range(0, 24), MAX_LIMIT])
    yield from large(random)


def pausing():
    """Thirteen searches in which every budget gives the same maps, the same ending and the same total of steps."""
    yield from ((PATH3, EDGE, Settings(limit=limit)) for limit in (None, 6, 1))
    yield PATH3, EDGE, Settings(vf2pp=True)
    yield TRIANGLE, PATH3, Settings()
    yield TRIANGLE, PATH3, Settings(induced=True)
    yield CYCLE3, CYCLE3, Settings(False, False, True)
    yield TWO_EDGES, ARC, Settings()
    yield FIVE_SEVEN, plain(True, 2, [(0, 1, 7)]), Settings(edge_labels=True)
    yield LOOP, plain(True, 1, []), Settings()
    yield plain(True, 3, []), plain(True, 2, []), Settings()
    yield PATH3, plain(False, 0, []), Settings()
    yield EDGE, PATH3, Settings()


def damaged_records(record, nodes0, nodes1):
    """Records that no search has made: each has one thing wrong, or is another record by chance."""
    yield record._replace(depth=min(nodes0, nodes1) + 1)
    yield record._replace(depth=65535)
    yield record._replace(path=record.path[:127] + b"\1")
    yield record._replace(path=record.path[: record.depth] + b"\1" + record.path[record.depth + 1 :])
    for i in range(record.depth):
        for x in (0, 1, 2, 3, 255):
            yield record._replace(path=record.path[:i] + bytes([x]) + record.path[i + 1 :])
    if record.depth:
        yield record._replace(depth=record.depth - 1)
    yield from (record._replace(top=top) for top in (*map(inner, (0, 1, 2, 3, 65535)), OUTER, UNWIND))
    yield record._replace(accepted=MOST_ACCEPTED)


def passed_records(board, block, settings):
    """Every record that the search passes, continued, and some of them damaged."""
    files = pack_search(board, block, settings)
    size = 2 * len(block.labels)
    for i, record in enumerate(Search(*files).records()):
        yield continued(*files, record, (0, 1, 2, 7, MAX_BUDGET)[i % 5], size + (0, 0, 3)[i % 3])
        if i % 4 == 1:
            damaged = damaged_records(record, len(board.labels), len(block.labels))
            yield from (continued(*files, each, 3, size) for each in damaged)


def records():
    yield from passed_records(PATH3, EDGE, Settings())
    yield from passed_records(CYCLE3, CYCLE3, Settings(False, True, True))
    yield from passed_records(TRIANGLE, PATH3, Settings(limit=3))
    files = pack_search(PATH3, EDGE, Settings())
    yield from (continued(*files, Record(), 5, size) for size in (0, 1, 3, 4, 5, 9))
    unlike = pack_search(EDGE, PATH3, Settings())
    one_pair = Record(1, bytes([1]) + bytes(127), OUTER, 1)
    yield from (continued(*unlike, each, 5, 6) for each in (Record(), Record(top=UNWIND), Record(top=inner(0)), one_pair))


def refusals():
    """Each number in its turn, for each call, with later ones waiting behind it."""
    good, block, settings = pack_search(PATH3, EDGE, Settings())
    files = [
        b"",
        good[:2],
        bytes([0x40, 0x80]) + good[2:],
        bytes([0x01, 0x80, 0x3F]) + good[3:],
        good + b"\0",
        good[:-1],
        good[:-1] + bytes([good[-1] | 1]),
        pack(plain(False, 2, [(0, 2)])),
        good,
        pack(ARC),
    ]
    for file0, file1 in itertools.product(files, repeat=2):
        for each in (settings, REFUSED_SETTINGS[0]):
            yield started(file0, file1, each)
            yield continued(file0, file1, each, Record(depth=3), 5, 0)
            yield checked(file0, file1, each, [0, 1])
    largest_limit = pack_settings(Settings(limit=MAX_LIMIT))
    for each in [settings, b"", settings + b"\0", *REFUSED_SETTINGS, largest_limit]:
        yield started(good, block, each)
        yield continued(good, block, each, Record(), 9, 4)
        yield checked(good, block, each, [0, 1])


def smallest():
    """The smallest input for each number, and the refused settings, that docs/FORMAT.md shows."""
    empty, one, settings = bytes(3), bytes.fromhex("80800000"), bytes(5)
    for file in ("", "408000", "004010", "000010", "000001", "0000100000"):
        yield started(bytes.fromhex(file), empty, settings)
        yield started(empty, bytes.fromhex(file), settings)
    yield started(empty, bytes.fromhex("800000"), settings)
    yield from (started(empty, empty, refused) for refused in [b"", *REFUSED_SETTINGS])
    yield continued(empty, empty, settings, Record(depth=1), 0, 0)
    yield continued(one, one, settings, Record(), 0, 0)
    yield checked(empty, empty, settings, [0])


def any_maps(random, n0, n1):
    """All maps of small graphs, a byte that names no node among them; of larger ones a few."""
    if (n0 + 1) ** n1 <= 30:
        return itertools.product(range(n0 + 1), repeat=n1)
    return (random.choices(range(n0), k=n1) for _ in range(3))


def first_map(files, n1):
    """The images that the search finds first, in the block's order of ids, or None."""
    search = Search(*files)
    answer, _ = search.run(100000)
    if answer != "found":
        return None
    found = search.found_map()
    images = dict(zip(found[1::2], found[0::2]))
    return [images[node] for node in range(n1)]


def checks(random):
    for board, block, settings in [*small_graphs(), *some_pieces(random, 0.2)]:
        files = pack_search(board, block, settings)
        n0, n1 = len(board.labels), len(block.labels)
        yield from (checked(*files, images) for images in any_maps(random, n0, n1))
        found = first_map(files, n1)
        if found is not None:
            yield checked(*files, found)
        yield checked(*files, [0] * (n1 + 1))
        yield checked(*files, [255] * n1)


def model_listing(files):
    search, maps, total, first = Search(*files), [], 0, "-"
    while True:
        answer, steps = search.run(10**9)
        total += steps
        if answer != "found":
            return "".join(maps) + line(answer, len(maps), search.accepted) + f"steps {total} {first}"
        first = first if maps else total
        maps.append(map_line(search.found_map()))


def listed(oracle, searches):
    """The cases of whole listings, with the Rust's answers."""
    for files, listing in zip(searches, rust_listings(oracle, searches)):
        if model_listing(files) != listing:
            raise SystemExit(f"the model differs from the Rust: {[file.hex() for file in files]}")
        yield listing_case(*files), listing_answer(listing)


def paused(oracle):
    """Listings with every budget up to that which makes all steps in one call; with budget 0 they stop before the first step."""
    searches = [pack_search(*each) for each in pausing()]
    for files, listing in zip(searches, rust_listings(oracle, searches)):
        _, steps = split_steps(listing)
        for budget in range(1, steps + 1):
            yield listing_case(*files, budget=budget), listing_answer(listing)
        waits = Search(*files).counts_agree()
        yield listing_case(*files, budget=0), listing_answer("paused 0 0\nsteps 0 -" if waits else listing)


def examples():
    """The files of each folder of examples/."""
    return [read_files(file.parent) for file in sorted(PROJECT.glob("examples/*/g0.bin"))]


def main():
    oracle = oracle_alone(__doc__)
    random = randoms.Random(20261115)
    searches = [pack_search(*each) for each in listings(random)]
    cases = [*listed(oracle, searches), *paused(oracle), *refusals(), *records(), *checks(random), *smallest()]
    cases += listed(oracle, examples())
    write_list("answer_searches", cases)
    print(f"{len(searches)} listings, {len(cases)} cases")


if __name__ == "__main__":
    main()
