#!/usr/bin/env python3
"""Long listings interrupted at every 65,535 steps, each Continue going on from the last one's record, beside one run.

    tests/interrupted.py --answer_searches PROGRAM --list PROGRAM

The cases are two of the bench: the grid of 8 x 16 with a path of 8, and with a ring of 9 that is not there. It prints the steps
of each, and whether the bytes of the listing are those that the listing program writes in its one run.
"""
import pathlib
import sys

sys.path.insert(0, str(pathlib.Path(__file__).resolve().parent.parent / "bench"))

from case_lines import MAX_BUDGET, listing_case, split_steps  # noqa: E402
from cases import absent, grid_path  # noqa: E402
from options import add_programs, words_of  # noqa: E402
from packed import pack_search  # noqa: E402
from programs import listing_answers, printed_listing  # noqa: E402


def main():
    words = words_of(__doc__)
    add_programs(words, "answer_searches", "list")
    given = words.parse_args()
    for name, case in (("path of 8", grid_path), ("ring of 9", absent)):
        files = pack_search(*case())
        (answer,) = listing_answers(given.answer_searches, [listing_case(*files, budget=MAX_BUDGET)])
        listing, steps = split_steps(answer)
        same = listing == printed_listing(given.list, files)
        print(f"grid 8 x 16, {name}: {steps} steps, at most {MAX_BUDGET} in a call: " + ("the same bytes" if same else "DIFFERS"))
        if not same:
            raise SystemExit(1)


if __name__ == "__main__":
    main()
