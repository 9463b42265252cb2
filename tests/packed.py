"""Graphs and settings, and the three files of a search, as document 01 packs them."""
from pathlib import Path
from typing import NamedTuple, Optional

MAX_NODES = 128
MAX_EDGES = 1024
MAX_NODE_LABEL = 4095
MAX_EDGE_LABEL = 63
MAX_LIMIT = 4294967294

FILE_NAMES = ("g0.bin", "g1.bin", "settings.bin")


class Graph(NamedTuple):
    directed: bool
    labels: list
    edges: list  # (source, target, label)


class Settings(NamedTuple):
    greater: bool = True
    vf2pp: bool = False
    induced: bool = False
    node_labels: bool = False
    edge_labels: bool = False
    limit: Optional[int] = None


def fields(kind, nodes, edges, labels=(), edge_list=()):
    """The bits of a file before its padding; the counts may disagree with the lists."""
    return "".join(
        [f"{kind:01b}{nodes:08b}{edges:011b}"]
        + [f"{label:012b}" for label in labels]
        + [f"{source:07b}{target:07b}{label:06b}" for source, target, label in edge_list]
    )


def as_bytes(bits):
    """The bits, with zero bits to the byte's end."""
    length = (len(bits) + 7) // 8
    return int(bits.ljust(8 * length, "0") or "0", 2).to_bytes(length, "big")


def pack(graph):
    return as_bytes(fields(graph.directed, len(graph.labels), len(graph.edges), graph.labels, graph.edges))


def pack_settings(settings):
    limited = settings.limit is not None
    first = (
        settings.greater << 6
        | settings.vf2pp << 5
        | settings.induced << 4
        | settings.node_labels << 3
        | settings.edge_labels << 2
        | limited << 1
    )
    return bytes([first]) + (settings.limit or 0).to_bytes(4, "big")


def pack_search(board, block, settings):
    """The bytes of the files FILE_NAMES."""
    return pack(board), pack(block), pack_settings(settings)


def node_count(file):
    return (int.from_bytes(file[:3], "big") >> 15) & 255


def write_files(folder, files):
    for name, data in zip(FILE_NAMES, files):
        Path(folder, name).write_bytes(data)


def read_files(folder):
    return tuple(Path(folder, name).read_bytes() for name in FILE_NAMES)
