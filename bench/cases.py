"""The cases of the bench: boards and blocks that are made anew each time, the same ones."""
import random as randoms

from packed import Graph, Settings
from shapes import grid, path, plain, ring


def complete(n):
    return [(a, b) for b in range(n) for a in range(b)]


def grid_board(rows, columns):
    return plain(False, rows * columns, grid(rows * columns, columns))


def random_board(directed, nodes, edges, seed):
    random = randoms.Random(seed)
    return plain(directed, nodes, [(random.randrange(nodes), random.randrange(nodes)) for _ in range(edges)])


def grid_path(rows=8, columns=16):
    return grid_board(rows, columns), plain(False, 8, path(8)), Settings()


def full_board(edges=1024):
    return random_board(True, 128, edges, 5), plain(True, 5, [(0, 1), (1, 2), (2, 3), (3, 4), (0, 2)]), Settings()


def dense_board():
    """Half of the pairs of 46 nodes are joined."""
    pairs = randoms.Random(46).sample(complete(46), 512)
    return plain(False, 46, pairs), plain(False, 4, complete(4)), Settings()


def ring_on_itself():
    return plain(False, 128, ring(128)), plain(False, 128, ring(128)), Settings(greater=False)


def absent():
    """A ring of nine is not on a grid, whose rings are all even."""
    return grid_board(8, 16), plain(False, 9, ring(9)), Settings()


def circuit(parts):
    """Parts (kind, net, net) first, then nets by number, and not by first use as in examples/pack.py; labels as there."""
    nets = sorted({net for _, *pins in parts for net in pins})
    labels = [kind for kind, *_ in parts] + [4 if net == 0 else 0 for net in nets]
    ends = [(part, net, pin) for part, (_, *pins) in enumerate(parts) for pin, net in enumerate(pins, 1)]
    return Graph(False, labels, [(part, len(parts) + nets.index(net), pin) for part, net, pin in ends])


def ladder(sections):
    """RC sections in a row, each with three resistors in parallel from net to net, and a capacitor to ground."""
    parts = [(1, s, s + 1) for s in range(1, sections + 1) for _ in range(3)]
    return circuit(parts + [(2, s + 1, 0) for s in range(1, sections + 1)])


def filters(sections, vf2pp, induced):
    """A filter of so many sections in a row of 25."""
    return ladder(25), ladder(sections), Settings(True, vf2pp, induced, True, True)


def bridge():
    """A resistor between every two of fifteen nets, and a bridge of four; a resistor may be turned round."""
    mesh = circuit([(1, a, b) for a, b in complete(16) if a])
    return mesh, circuit([(1, a + 1, b + 1) for a, b in ring(4)]), Settings(node_labels=True)


def netlist(parts, nets, kinds, seed):
    """Parts with two pins, each on a net; labels are the part's kind, 0 for a net, and the pin's number."""
    random = randoms.Random(seed)
    labels = [1 + random.randrange(kinds) for _ in range(parts)] + [0] * nets
    edges = []
    for part in range(parts):
        first, second = random.sample(range(nets), 2)
        edges += [(part, parts + first, 1), (part, parts + second, 2)]
    return Graph(False, labels, edges)


def netlist_chain():
    """Three parts in a row, first pin to second, on a netlist-like board."""
    block = Graph(False, [1, 1, 1, 0, 0, 0, 0], [(0, 3, 1), (0, 4, 2), (1, 4, 1), (1, 5, 2), (2, 5, 1), (2, 6, 2)])
    return netlist(112, 16, 1, 11), block, Settings(node_labels=True, edge_labels=True)


CASES = [
    # one block on boards with more and more nodes, then edges
    ("grid 4 x 4, path of 8", lambda: grid_path(4, 4)),
    ("grid 4 x 8, path of 8", lambda: grid_path(4, 8)),
    ("grid 8 x 8, path of 8", lambda: grid_path(8, 8)),
    ("grid 8 x 16, path of 8", grid_path),
    ("directed, 128 nodes, 128 edges", lambda: full_board(128)),
    ("directed, 128 nodes, 256 edges", lambda: full_board(256)),
    ("directed, 128 nodes, 512 edges", lambda: full_board(512)),
    ("directed, 128 nodes, 1,024 edges", full_board),
    # boards and blocks of several kinds
    ("netlist-like, both labels", netlist_chain),
    ("dense, 46 nodes, K4", dense_board),
    ("ring of 128 on itself, Equal", ring_on_itself),
    ("filter section, by id", lambda: filters(1, False, False)),
    ("filter section, by id, induced", lambda: filters(1, False, True)),
    ("filter section, VF2++", lambda: filters(1, True, False)),
    ("filter section, VF2++, induced", lambda: filters(1, True, True)),
    ("three sections, by id", lambda: filters(3, False, False)),
    ("three sections, by id, induced", lambda: filters(3, False, True)),
    ("three sections, VF2++", lambda: filters(3, True, False)),
    ("three sections, VF2++, induced", lambda: filters(3, True, True)),
    ("bridge in a mesh of 15 nets", bridge),
    ("grid 8 x 16, ring of 9: not there", absent),
]
