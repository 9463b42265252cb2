"""Graphs of a known shape, without labels."""
from packed import Graph


def plain(directed, nodes, edges):
    """All node labels are 0, and those of edges that are given without one."""
    return Graph(directed, [0] * nodes, [(*edge, 0)[:3] for edge in edges])


def path(nodes):
    return [(v, v + 1) for v in range(nodes - 1)]


def ring(nodes):
    return [(v, (v + 1) % nodes) for v in range(nodes)]


def grid(nodes, width):
    """Rows of this width, one below the other; the last may be shorter."""
    right = [(v, v + 1) for v in range(nodes - 1) if (v + 1) % width]
    return right + [(v, v + width) for v in range(nodes - width)]
