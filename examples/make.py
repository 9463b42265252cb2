#!/usr/bin/env python3
"""Writes the files of the examples: g0.bin, g1.bin, settings.bin and the listing, a folder each.

    examples/make.py ORACLE

ORACLE is the Rust oracle (tests/README.md), whose listing is written. A circuit is text as pack.py reads it.
"""
import pathlib
import sys

HERE = pathlib.Path(__file__).resolve().parent
sys.path.insert(0, str(HERE.parent / "tests"))

from case_lines import split_steps  # noqa: E402
from options import oracle_alone  # noqa: E402
from oracle import rust_listings  # noqa: E402
from pack import BOTH, circuit  # noqa: E402
from packed import Settings, pack_search, write_files  # noqa: E402
from shapes import path, plain  # noqa: E402


def drawn(text):
    graph, _ = circuit(text)
    return graph


def mesh(rows, columns):
    """A resistor between every two neighbours of a grid of nets; the net in row r and column c is named rc."""
    along = [f"R {r}{c} {r}{c + 1}" for r in range(1, rows + 1) for c in range(1, columns)]
    down = [f"R {r}{c} {r + 1}{c}" for r in range(1, rows) for c in range(1, columns + 1)]
    return "\n".join(along + down)


SECTION = """
R1 in out
C1 out 0
"""
CHAIN = """
R1 in a
C1 a 0
R2 a b
C2 b 0
R3 b c
C3 c 0
R4 c out
C4 out 0
"""
SUPPLY = """
R1 in out
C1 out vdd
C2 vdd 0
"""
BRIDGE = """
R1 a b
R2 b c
R3 c d
R4 d a
"""
LOADED = """
R1 in out
C1 out -
"""
BYPASS = """
R1 in out
C1 out in
"""

EXAMPLES = {
    "worked": (plain(False, 3, path(3)), plain(False, 2, path(2)), Settings()),
    "filter-chain": (drawn(CHAIN), drawn(SECTION), BOTH),
    "bridge-in-mesh": (drawn(mesh(3, 3)), drawn(BRIDGE), Settings(node_labels=True)),
    "looks-present": (drawn(SUPPLY), drawn(SECTION), BOTH),
    "free-pin": (drawn(BYPASS), drawn(LOADED), BOTH._replace(induced=True)),
}


def main():
    oracle = oracle_alone(__doc__)
    files = [pack_search(*example) for example in EXAMPLES.values()]
    for name, parts, answer in zip(EXAMPLES, files, rust_listings(oracle, files)):
        folder = HERE / name
        folder.mkdir(exist_ok=True)
        write_files(folder, parts)
        listing, _ = split_steps(answer)
        folder.joinpath("listing").write_text(listing)


if __name__ == "__main__":
    main()
