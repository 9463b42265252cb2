#!/usr/bin/env python3
"""Makes the fixed list of cases of the answer_orders program and the answers that must come.

    tests/make_list.py ORACLE

writes crates/answer_orders/stdin and crates/answer_orders/stdout. The node orders are the Rust oracle's; Read's answers and all refusals are
those of read_model.py. It stops where the model of the order differs from the Rust, and where the list would not tell a wrong
reading of the order.
"""
import random as randoms

import expected
from case_lines import MAX_BUFFER, order_line, read_case, write_list
from options import oracle_alone
from oracle import rust_orders
from order_model import WRONG, vf2pp
from packed import Graph, as_bytes, fields, pack
from random_graphs import random_graph
from shapes import path, plain, ring


# The graphs whose orders are listed.

DIRECTED = [
    # n, edges, the wrong readings that it tells
    (4, [(1, 2), (1, 3), (0, 2)], ["root: no out", "root: out turned", "root: in before out"]),
    (4, [(0, 3), (1, 3), (2, 1)], ["root: no in", "root: in turned", "root: id before in"]),
    (3, [(0, 2), (1, 2)], ["root: id turned"]),
    (5, [(0, 1), (0, 2), (0, 2), (1, 3)], ["level: no conn_in", "level: conn_in turned", "level: out before conn_in"]),
    (5, [(0, 1), (0, 2), (0, 3), (1, 3), (1, 4), (2, 4)], ["connections are those at the level's start"]),
    (6, [(0, 1), (0, 2), (0, 5), (1, 0), (2, 3), (2, 4)], ["level: no out", "level: out turned", "level: conn_out before out"]),
    (5, [(0, 1), (0, 2), (2, 0), (1, 3), (4, 1)], ["level: no conn_out", "level: conn_out turned", "level: in before conn_out"]),
    (4, [(0, 1), (0, 2), (3, 2)], ["level: no in", "level: in turned", "level: id before in"]),
    (3, [(0, 1), (0, 2)], ["level: id turned"]),
    (5, [(0, 1), (0, 2), (0, 4), (1, 0), (1, 3), (2, 0), (2, 0)], ["connections count parallel edges once"]),
    (5, [(0, 1), (0, 2), (0, 2), (0, 3), (1, 4)], ["connections count parallel edges once"]),
    (6, [(0, 1), (0, 2), (0, 5), (3, 2), (3, 2), (4, 1)], ["degrees count parallel edges once"]),
    (3, [(0, 2), (1, 2), (1, 2)], ["degrees count parallel edges once"]),
    (8, [(0, 1), (0, 2), (0, 3), (4, 5), (4, 6), (5, 7), (6, 0)], ["connections start anew at each root"]),
    (5, [(0, 1), (0, 2), (0, 4), (1, 3), (1, 3)], ["no levels, the largest of all that is reached"]),
    (6, [(0, 1), (0, 5), (4, 0), (2, 3)], ["breadth first against the edges too"]),
    (2, [(1, 1)], ["a directed self-loop is passed over"]),
    (3, [(0, 1), (0, 2), (2, 2)], ["a directed self-loop is passed over"]),
]

UNDIRECTED = [
    (4, [(1, 2), (1, 3), (0, 2)], ["root: no out", "root: out turned"]),
    (4, [(0, 2), (1, 3)], ["root: id turned"]),
    (5, [(0, 1), (0, 2), (0, 2), (1, 3), (1, 4)], ["level: no conn_in", "level: conn_in turned", "level: out before conn_in"]),
    (5, [(0, 1), (0, 2), (0, 4), (2, 3)], ["level: no out", "level: out turned"]),
    (4, [(0, 1), (0, 2), (0, 3)], ["level: id turned"]),
    (5, [(0, 1), (0, 2), (0, 2), (1, 3), (1, 4)], ["connections count parallel edges once"]),
    (6, [(0, 1), (0, 2), (0, 3), (0, 4), (2, 2), (1, 5)], ["an undirected self-loop appears twice"]),
    (3, [(0, 2), (1, 1)], ["an undirected self-loop appears twice"]),
    (3, [(0, 1), (0, 2), (2, 2), (0, 0)], ["an undirected self-loop is passed over"]),
    (3, [(1, 1)], ["an undirected self-loop is passed over"]),
]


def told_apart():
    """The graphs made to tell wrong readings; stops where one does not."""
    told, graphs = set(), []
    for directed, rows in ((True, DIRECTED), (False, UNDIRECTED)):
        for n, edges, readings in rows:
            made = plain(directed, n, edges)
            for reading in readings:
                if vf2pp(made, WRONG[reading]) == vf2pp(made):
                    raise SystemExit(f"{made} does not tell: {reading}")
            told |= set(readings)
            graphs.append(made)
    if told != set(WRONG):
        raise SystemExit(f"no graph tells: {sorted(set(WRONG) - told)}")
    return graphs


def shapes(directed):
    """Small graphs with many ties: points, loops, parallel edges, paths, stars, cycles, complete graphs, a grid, a tree."""
    petersen = ring(5) + [(v, v + 5) for v in range(5)] + [(5 + v, 5 + (v + 2) % 5) for v in range(5)]
    return [
        plain(directed, 0, []),
        plain(directed, 1, []),
        plain(directed, 1, [(0, 0)]),
        plain(directed, 1, [(0, 0, j % 64) for j in range(1024)]),
        plain(directed, 2, []),
        plain(directed, 2, [(0, 1)]),
        plain(directed, 2, [(1, 0)]),
        plain(directed, 3, [(0, 1), (1, 2)]),
        plain(directed, 2, [(0, 1)] * 3 + [(1, 0)] * 2),
        plain(directed, 2, [(0, 1, 5), (0, 1, 7), (1, 1, 7)]),
        plain(directed, 6, path(6)),
        plain(directed, 6, [(v + 1, v) for v in range(5)]),
        plain(directed, 7, [(0, v) for v in range(1, 7)]),
        plain(directed, 7, [(v, 6) for v in range(6)]),
        plain(directed, 8, ring(8)),
        plain(directed, 9, [(v, v - v % 3 + (v + 1) % 3) for v in range(9)]),
        plain(directed, 7, [(a, b) for a in range(7) for b in range(7) if a != b]),
        plain(directed, 7, [(a, b) for a in range(3) for b in range(3, 7)]),
        plain(directed, 10, petersen),
        plain(directed, 16, [(v, w) for v in range(16) for w in (v + 1, v + 4) if w < 16 and (w != v + 1 or w % 4)]),
        plain(directed, 15, [((v - 1) // 2, v) for v in range(1, 15)]),
        plain(directed, 12, [(v, v) for v in range(0, 12, 2)]),
        plain(directed, 12, [(11, 10), (10, 9), (3, 2), (2, 3), (5, 5)]),
    ]


def exactly(random, directed, n, edges):
    """A random graph with just so many nodes and edges, its labels among all."""
    ends = [(random.randrange(n), random.randrange(n), random.randrange(64)) for _ in range(edges)]
    return Graph(directed, [random.randrange(4096) for _ in range(n)], ends)


def chosen_graphs(random):
    graphs = told_apart() + shapes(True) + shapes(False)
    for directed in (True, False):
        graphs += [plain(directed, 127, []), plain(directed, 128, []), plain(directed, 128, [(127, 126)])]
        graphs += [exactly(random, directed, 128, 1024), exactly(random, directed, 127, 1023)]
    graphs += [exactly(random, True, 128, 1023), exactly(random, False, 127, 1024)]
    graphs += [random_graph(random, 24, 60) for _ in range(50)]
    return graphs + [random_graph(random, 128, 250) for _ in range(16)]


def order_cases(random, oracle):
    graphs = chosen_graphs(random)
    files = [pack(made) for made in graphs]
    for i, (made, file, (by_id, plus_plus)) in enumerate(zip(graphs, files, rust_orders(oracle, files))):
        if plus_plus != vf2pp(made):
            raise SystemExit(f"the model differs from the Rust on {file.hex()}")
        n = len(by_id)
        for call, ids in (("byid", by_id), ("vf2pp", plus_plus)):
            buffers = [n] + [random.randint(n + 1, min(n + 9, MAX_BUFFER))] * (i % 3 == 0) + [n - 1] * (i % 4 == 1 and n > 0)
            for buffer in buffers:
                yield read_case(call, buffer, file), order_line(ids, buffer)


# The files that Read turns away, and their neighbours that it takes.


def zeros(kind, n, edges):
    """A file of the right length with zero labels and edges from 0 to 0."""
    return with_edges(kind, n, [(0, 0)] * edges)


def with_edges(kind, n, edges):
    return pack(plain(kind, n, edges))


def with_bit(file, bit):
    """The file with this bit changed, counted from its end where it is negative."""
    bit %= 8 * len(file)
    changed = bytearray(file)
    changed[bit // 8] ^= 0x80 >> bit % 8
    return bytes(changed)


def lengths(kind):
    short = [b"", b"\x00", b"\xff", b"\x00\x00", b"\xff\xff", b"\xc0\x80"]
    header = [as_bytes(fields(kind, n, e)) for n in (0, 1, 128, 129, 255) for e in (0, 1, 1024, 1025, 2047)]
    counts = [(0, 0), (1, 0), (1, 1), (2, 1), (2, 2), (5, 4), (6, 4), (127, 3), (128, 0), (128, 7), (3, 1024)]
    near = []
    for n, edges in counts:
        file = zeros(kind, n, edges)
        near += [file, file[:-1], file + b"\x00", file + b"\xff"]
    return short + header + near


def limits(kind):
    edge = [(0, 0, 0)]
    return [
        zeros(kind, 128, 0),
        zeros(kind, 129, 0),
        zeros(kind, 255, 0),
        zeros(kind, 128, 1024),
        zeros(kind, 1, 1024),
        zeros(kind, 1, 1025),
        zeros(kind, 128, 1025),
        zeros(kind, 129, 1024),
        as_bytes(fields(kind, 1, 2047, [0], edge * 1000)),
        as_bytes(fields(kind, 2, 3, [4095, 4095], [(1, 1, 63)] * 3)),
    ]


def padding(kind):
    """Each padding bit by itself, and all patterns of one file; the padding has 4 bits where N + E is even, and else none."""
    files = []
    for n, edges in ((0, 0), (1, 1), (2, 0), (4, 6), (127, 1), (128, 2)):
        file = zeros(kind, n, edges)
        files += [with_bit(file, -1 - k) for k in range(5)]
    last = zeros(kind, 3, 1)
    return files + [last[:-1] + bytes([last[-1] | pattern]) for pattern in range(16)]


def unknown_nodes(kind):
    files = [with_edges(kind, 0, [(0, 0, 0)]), with_edges(kind, 0, [(0, 0, 0)] * 2)]
    for n in (1, 2, 5, 64, 127):
        for node in (n - 1, n, 127):
            files += [with_edges(kind, n, [(node, 0, 1)]), with_edges(kind, n, [(0, node, 63)])]
    for where in range(3):
        for edge in ((4, 0, 0), (0, 4, 0), (3, 3, 0)):
            edges = [(0, 1, 2), (1, 2, 3), (2, 3, 4)]
            edges[where] = edge
            files.append(with_edges(kind, 4, edges))
    last = [(0, 0, 0)] * 1023
    return files + [with_edges(kind, 128, [(127, 127, 63), (0, 127, 0), (127, 0, 0)]), with_edges(kind, 9, last + [(0, 9, 0)])]


def broken_twice(kind):
    """Files that break two lines of the table, or more; the earlier number is given. None breaks 2 and 6: an edge names at most
    node 127."""
    bad = with_edges(kind, 4, [(0, 4, 0), (4, 0, 0)])
    return [
        as_bytes(fields(kind, 129, 1025))[:2],
        as_bytes(fields(kind, 129, 1025)),
        zeros(kind, 129, 1025),
        zeros(kind, 129, 0)[:-1],
        with_bit(zeros(kind, 130, 0), -1),
        as_bytes(fields(kind, 3, 1025)),
        zeros(kind, 0, 1025),
        with_bit(zeros(kind, 1, 1025), -1),
        bad[:-1],
        bad + b"\x00",
        bad + b"\x01",
        with_bit(bad, -1),
        with_bit(bad, -4),
        with_bit(zeros(kind, 0, 2), -2),
    ]


EXAMPLES = [bytes.fromhex("018020000000000004002080"), bytes.fromhex("0100100000000040")]


def read_files(random):
    files = EXAMPLES + [with_bit(file, bit) for file in EXAMPLES for bit in range(8 * len(file))]
    for kind in (0, 1):
        files += lengths(kind) + limits(kind) + padding(kind) + unknown_nodes(kind) + broken_twice(kind)
    return files + [random.randbytes(random.randint(3, 40)) for _ in range(20)]


def read_cases(random):
    for file in dict.fromkeys(read_files(random)):
        case, answer = expected.read(file)
        yield case, answer
        if answer.startswith("refused") and len(file) < 40:
            buffer = random.choice([0, 3, 128])
            yield expected.ordered(random.choice(["byid", "vf2pp"]), file, buffer)


def main():
    random = randoms.Random(1)
    cases = [*order_cases(random, oracle_alone(__doc__)), *read_cases(random)]
    write_list("answer_orders", cases)
    print(f"{len(cases)} cases")


if __name__ == "__main__":
    main()
