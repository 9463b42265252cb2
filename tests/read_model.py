"""A model of reading, with the refusals 1 to 8: written from document 01's tables and from nothing else.

It is the one reader of the scripts. The limits stand here as numbers, and are not those of packed.py, so that what makes the
inputs has no say in what is refused.
"""
from packed import Graph, Settings


class Refused(Exception):
    def __init__(self, number, file=0):
        self.number, self.file = number, file


def bits_of(data):
    return "".join(f"{byte:08b}" for byte in data)


def edge_at(bits, start):
    source, target, label = bits[start : start + 7], bits[start + 7 : start + 14], bits[start + 14 : start + 20]
    return int(source, 2), int(target, 2), int(label, 2)


def read(data, file=0):
    """The graph of a file, or the first refusal of 1 to 6."""
    if len(data) < 3:
        raise Refused(1, file)
    bits = bits_of(data)
    nodes, edges = int(bits[1:9], 2), int(bits[9:20], 2)
    first_edge = 20 + 12 * nodes
    used = first_edge + 20 * edges
    if nodes > 128:
        raise Refused(2, file)
    if edges > 1024:
        raise Refused(3, file)
    if len(data) != (used + 7) // 8:
        raise Refused(4, file)
    if "1" in bits[used:]:
        raise Refused(5, file)
    labels = [int(bits[start : start + 12], 2) for start in range(20, first_edge, 12)]
    listed = [edge_at(bits, start) for start in range(first_edge, used, 20)]
    if any(source >= nodes or target >= nodes for source, target, _ in listed):
        raise Refused(6, file)
    return Graph(bits[0] == "1", labels, listed)


def read_settings(data):
    """The settings, or refusal 8."""
    if len(data) != 5:
        raise Refused(8)
    bits = bits_of(data)
    ordering, switches, limited, spare, limit = bits[:2], bits[2:6], bits[6] == "1", bits[7], int(bits[8:], 2)
    if ordering not in ("00", "01") or spare == "1" or limit > 4294967294 or (limit and not limited):
        raise Refused(8)
    return Settings(ordering == "01", *(bit == "1" for bit in switches), limit if limited else None)


def examine(file0, file1, settings):
    """Both graphs and the settings, or the first refusal of 1 to 8."""
    graph0, graph1 = read(file0, 0), read(file1, 1)
    if graph0.directed != graph1.directed:
        raise Refused(7)
    return graph0, graph1, read_settings(settings)
