"""Random graphs of several families, and blocks that are part of a board."""
from packed import MAX_EDGE_LABEL, MAX_EDGES, MAX_NODE_LABEL, MAX_NODES, Graph
from shapes import grid


def random_graph(random, nodes=MAX_NODES, edges=MAX_EDGES):
    """A graph of one of several families, with at most so many nodes and edges, its nodes renumbered at random."""
    n = random.randint(0, random.choice([6, nodes, nodes]))
    pairs = random.choice(FAMILIES)(random, n, edges) if n else []
    looped = random.choice([0, 0, 0.1, 0.5])
    pairs += [(v, v) for v in range(n) if random.random() < looped]
    if pairs and random.random() < 0.3:
        pairs += random.choices(pairs, k=random.randint(1, len(pairs)))
    random.shuffle(pairs)
    names = random.sample(range(n), n)
    node_label, edge_label = random.choice([0, 2, MAX_NODE_LABEL]), random.choice([0, 1, MAX_EDGE_LABEL])
    labels = [random.randint(0, node_label) for _ in range(n)]
    chosen = [(names[a], names[b], random.randint(0, edge_label)) for a, b in pairs[:edges]]
    return Graph(random.random() < 0.5, labels, chosen)


def part_of(random, board, size):
    """Some nodes of the board with most of the edges between them, renumbered: a block that is there, or nearly."""
    nodes = random.sample(range(len(board.labels)), min(size, len(board.labels)))
    place = {v: i for i, v in enumerate(nodes)}
    kept = random.choice([1, 1, 0.8, 0.5])
    edges = [
        random.choice([(place[a], place[b], label)] + [(place[b], place[a], label)] * (not board.directed))
        for a, b, label in board.edges
        if a in place and b in place and random.random() < kept
    ]
    random.shuffle(edges)
    return Graph(board.directed, [board.labels[v] for v in nodes], edges)


def uniform(random, n, edges):
    return [(random.randrange(n), random.randrange(n)) for _ in range(random.randint(0, edges))]


def sparse(random, n, edges):
    return [(random.randrange(n), random.randrange(n)) for _ in range(random.randint(0, min(2 * n, edges)))]


def hubs(random, n, edges):
    hub = random.choices(range(n), k=random.randint(1, 4))
    pairs = [(random.choice(hub), random.randrange(n)) for _ in range(random.randint(0, min(4 * n, edges)))]
    return [random.choice([(a, b), (b, a)]) for a, b in pairs]


def circulant(random, n, edges):
    jumps = random.choices(range(n), k=random.randint(1, 4))
    return [(v, (v + jump) % n) for jump in jumps for v in range(n)]


def nearly_regular(random, n, edges):
    pairs = circulant(random, n, edges)
    for _ in range(random.randint(1, 3)):
        pairs[random.randrange(len(pairs))] = (random.randrange(n), random.randrange(n))
    return pairs


def blocks(random, n, edges):
    """Copies of one small graph side by side, so that roots and levels tie."""
    size = random.randint(1, min(n, 8))
    inner = [(random.randrange(size), random.randrange(size)) for _ in range(random.randint(0, 2 * size))]
    return [(start + a, start + b) for start in range(0, n - size + 1, size) for a, b in inner]


def layers(random, n, edges):
    """Each node to nodes of the next layer: wide levels with many ties."""
    width = random.randint(1, n)
    fan = random.randint(1, 3)
    ends = [(v, (v // width + 1) * width) for v in range(n) for _ in range(fan)]
    return [(v, random.randrange(start, min(start + width, n))) for v, start in ends if start < n]


def tree(random, n, edges):
    return [(random.randrange(v), v) for v in range(1, n)]


def rows(random, n, edges):
    return grid(n, random.randint(1, n))


def complete(random, n, edges):
    size = min(n, random.randint(1, 40))
    return [(a, b) for a in range(size) for b in range(a)]


def mixed(random, n, edges):
    one, other = random.choice(FAMILIES[:-1]), random.choice(FAMILIES[:-1])
    return one(random, n, edges) + other(random, n, edges)


FAMILIES = [uniform, sparse, hubs, circulant, nearly_regular, blocks, layers, tree, rows, complete, mixed]
