#!/usr/bin/env python3
"""Packs a board and a block, written as text, into the files of ./list.

    examples/pack.py BOARD BLOCK FOLDER

BOARD and BLOCK have a part on each line: its name, then the nets of its pins 1, 2, ..; `-` is a pin that leaves the circuit, and
`0` the ground net. A part's label is that of its kind, by the name's first letter R, C or L, or the number behind a stroke, as
in U7/35. FOLDER gets g0.bin, g1.bin and settings.bin, which says Greater, by id, node and edge labels compared; the nodes of
both are printed with their names.
"""
import pathlib
import sys

HERE = pathlib.Path(__file__).resolve().parent
sys.path.insert(0, str(HERE.parent / "tests"))

from packed import MAX_EDGE_LABEL, MAX_EDGES, MAX_NODE_LABEL, MAX_NODES, Graph, Settings, pack_search, write_files  # noqa: E402

KINDS = {"R": 1, "C": 2, "L": 3}
NET = 0
GROUND = 4
BOTH = Settings(node_labels=True, edge_labels=True)


def label(name):
    kind, stroke, number = name.partition("/")
    if not stroke and kind[0] not in KINDS:
        raise ValueError(f"{name} is no R, C or L: write its label behind it, as {name}/35")
    return int(number) if stroke else KINDS[kind[0]]


def circuit(text):
    """The graph, and its nodes' names: parts first, then nets in order of first use. An edge joins a part to a net for each pin,
    labelled by the pin's number; edges rise."""
    parts = [line.split() for line in text.splitlines() if line.strip()]
    nets = list(dict.fromkeys(net for _, *pins in parts for net in pins if net != "-"))
    labels = [label(name) for name, *_ in parts] + [GROUND if net == "0" else NET for net in nets]
    pins = [(part, net, pin) for part, (_, *ends) in enumerate(parts) for pin, net in enumerate(ends, 1) if net != "-"]
    edges = sorted((part, len(parts) + nets.index(net), pin) for part, net, pin in pins)
    return Graph(False, labels, edges), [name for name, *_ in parts] + nets


def read(path):
    try:
        graph, names = circuit(pathlib.Path(path).read_text())
    except (OSError, ValueError) as error:
        raise SystemExit(f"pack.py: {path}: {error}")
    if MAX_NODES < len(graph.labels) or MAX_EDGES < len(graph.edges):
        raise SystemExit(f"pack.py: {path}: more than {MAX_NODES} nodes or {MAX_EDGES} pins")
    if not all(0 <= each <= MAX_NODE_LABEL for each in graph.labels) or not all(pin <= MAX_EDGE_LABEL for *_, pin in graph.edges):
        raise SystemExit(f"pack.py: {path}: a label outside 0 to {MAX_NODE_LABEL} or a pin above {MAX_EDGE_LABEL}")
    return graph, names


def main():
    if len(sys.argv) != 4:
        raise SystemExit("pack.py: examples/pack.py BOARD BLOCK FOLDER")
    (board, board_names), (block, block_names) = read(sys.argv[1]), read(sys.argv[2])
    folder = pathlib.Path(sys.argv[3])
    folder.mkdir(parents=True, exist_ok=True)
    write_files(folder, pack_search(board, block, BOTH))
    for side, names in (("board", board_names), ("block", block_names)):
        print(side, " ".join(f"{node}={name}" for node, name in enumerate(names)))


if __name__ == "__main__":
    main()
