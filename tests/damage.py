#!/usr/bin/env python3
"""Damaged inputs through Read, Order, Start, Continue and Check, compared with the models written from document 01.

    tests/damage.py --answer_orders PROGRAM --answer_searches PROGRAM --seed S --count K

makes that many inputs from the seed: sound files, settings, records and maps with bits flipped, bytes cut off, added, spliced or
replaced, and bytes that are random altogether. The expected answers are those of the models, which share nothing with the
programs. It prints how many inputs each call had, how many were refused with which number, and how many differ.
"""
import itertools
import random as randoms
from collections import Counter

import expected
from case_lines import MAX_BUDGET, write_list
from options import add_programs, add_random_cases, words_of
from packed import MAX_LIMIT, Settings, pack, pack_search
from programs import batches, differences, line_answers
from random_graphs import part_of, random_graph
from read_model import Refused, read
from search_model import MOST_ACCEPTED, OUTER, UNWIND, Record, Search, inner

BATCH = 2000
MAX_SETTINGS = 16  # the most that answer_searches takes in a case
PROGRAMS = ("answer_orders", "answer_searches")


def damaged(random, data, other):
    """The bytes with one or more things wrong, or none by chance."""
    data = bytearray(data)
    for _ in range(random.choice([1, 1, 1, 2, 3])):
        kind = random.randrange(8)
        at = random.randint(0, len(data))
        if kind <= 2 and data:
            data[at % len(data)] ^= 1 << random.randrange(8)
        elif kind == 3:
            del data[at:]
        elif kind == 4:
            data[at:at] = bytes(random.randrange(256) for _ in range(random.randint(1, 3)))
        elif kind == 5 and data:
            data[at % len(data)] = random.choice([0, 255, random.randrange(256)])
        elif kind == 6:
            data[at:] = other[min(at, len(other)) :]
        elif kind == 7:
            data = bytearray(random.randrange(256) for _ in range(random.randint(0, 12)))
    return bytes(data)


def perhaps(random, data, other, chance):
    return damaged(random, data, other) if random.random() < chance else data


def some_buffer(random, file):
    """The length of a buffer for an Order."""
    try:
        n = len(read(file).labels)
    except Refused:
        return random.randint(0, 6)
    return random.choice([n, n, n + 2, max(n - 1, 0)])


def read_case(random, file):
    call = random.choice(["read", "byid", "vf2pp"])
    return expected.read(file) if call == "read" else expected.ordered(call, file, some_buffer(random, file))


def any_record(random):
    """Every field at random."""
    depth = random.choice([random.randrange(4), random.randrange(65536)])
    top = random.choice([OUTER, UNWIND, inner(random.choice([random.randrange(8), random.randrange(65536)]))])
    return Record(depth, random.randbytes(128), top, random.randrange(2**32))


def passed_record(random, files):
    """A record that the search passes in its first steps; Start's where there is no search."""
    try:
        search = Search(*files)
    except Refused:
        return Record()
    if not search.counts_agree():
        return Record()
    *_, record = itertools.islice(search.records(), random.randint(0, 12) + 1)
    return record


def changed_record(random, record):
    """The record with some of its fields changed, or none by chance."""
    if random.random() < 0.5:
        path = bytearray(record.path)
        path[random.choice([0, 1, 2, record.depth % 128, random.randrange(128)])] = random.choice([0, 1, 2, 3, 255])
        record = record._replace(path=bytes(path))
    if random.random() < 0.2:
        record = record._replace(depth=random.choice([0, 1, 2, 3, 128, 129, 65535]))
    if random.random() < 0.3:
        record = record._replace(top=random.choice([OUTER, UNWIND, inner(random.choice([0, 1, 2, 3, 127, 128, 65535]))]))
    if random.random() < 0.2:
        record = record._replace(accepted=random.choice([0, 1, MOST_ACCEPTED - 1, MOST_ACCEPTED]))
    return record


def some_record(random, files):
    return any_record(random) if random.random() < 0.2 else changed_record(random, passed_record(random, files))


def damaged_case(random, board, block):
    switches = [random.random() < 0.5 for _ in range(5)]
    sound = pack_search(board, block, Settings(*switches, random.choice([None, None, 0, 1, 5, MAX_LIMIT])))
    file0, file1, settings = (perhaps(random, sound[each], sound[other], 0.15) for each, other in ((0, 1), (1, 0), (2, 0)))
    files = file0, file1, settings[:MAX_SETTINGS]
    call = random.randrange(4)
    if call == 0:
        return expected.started(*files)
    if call == 1:
        images = [random.choice([0, 1, 2, 3, 255]) for _ in range(random.choice([len(block.labels)] * 4 + [1, 5]))]
        return expected.checked(*files, images)
    record = some_record(random, random.choice([sound, files]))
    size = random.choice([2 * len(block.labels)] * 4 + [0, 1, 9])
    return expected.continued(*files, record, random.choice([0, 1, 2, 5, 40, MAX_BUDGET]), size)


def small(random, directed=None):
    graph = random_graph(random, random.choice([1, 2, 3, 4, 5]), 6)
    return graph if directed is None or random.random() < 0.1 else graph._replace(directed=directed)


def damaged_cases(random, count):
    """For each program pairs of a case and the expected answer, so many together."""
    cases = {program: [] for program in PROGRAMS}
    for _ in range(count):
        board = small(random)
        block = part_of(random, board, random.randint(0, 3)) if random.random() < 0.5 else small(random, board.directed)
        if random.random() < 0.5:
            cases["answer_orders"].append(read_case(random, perhaps(random, pack(board), pack(block), 0.9)))
        else:
            cases["answer_searches"].append(damaged_case(random, board, block))
    return cases


def kind_of(answer):
    """Its first word, and a refusal's number."""
    words = answer.split()
    return " ".join(words[: 2 if words[0] == "refused" else 1])


def tally(name, counts):
    print(f"{name}: " + ", ".join(f"{each} {count}" for each, count in sorted(counts.items())))


def compare(given):
    random = randoms.Random(given.seed)
    calls, answers, found = Counter(), Counter(), []
    for size in batches(given.count, BATCH):
        for program, cases in damaged_cases(random, size).items():
            lines, wanted = [line for line, _ in cases], [answer for _, answer in cases]
            found += differences(lines, wanted, line_answers(getattr(given, program), lines))
            calls.update(line.split()[0] for line in lines)
            answers.update(kind_of(answer) for answer in wanted)
    print(f"seed {given.seed}: {given.count} inputs, {len(found)} differ")
    tally("calls", calls)
    tally("answers", answers)
    if found:
        line, wanted, ours = min(found, key=lambda difference: len(difference.case))
        raise SystemExit(f"{line}expected: {wanted}ours: {ours}")


def write(given):
    for program, cases in damaged_cases(randoms.Random(given.seed), given.count).items():
        write_list(program, cases, given.write)


def main():
    words = words_of(__doc__)
    add_programs(words, *PROGRAMS, required=False)
    add_random_cases(words, 100000)
    words.add_argument("--write", metavar="FOLDER", help="run nothing: write the cases into the crates of this copy")
    given = words.parse_args()
    if given.write:
        write(given)
    elif given.answer_orders and given.answer_searches:
        compare(given)
    else:
        words.error("--answer_orders and --answer_searches, or --write")


if __name__ == "__main__":
    main()
