"""The lines of the programs `answer_orders` and `answer_searches`: cases, and answers to them, in the form that tests/README.md gives."""
from pathlib import Path

from packed import node_count

PROJECT = Path(__file__).resolve().parent.parent
FILL = 255  # every byte of an answer buffer before the call
MAX_BUFFER = 256  # the longest buffer that answer_orders lends
MAX_BUDGET = 65535
TOPS = {"outer": 0, "inner": 1, "unwind": 2}
END = "\n.\n"  # of a listing's answer


def line(*words):
    return " ".join(str(word) for word in words) + "\n"


def read_case(call, buffer, file):
    return f"{call:5} {buffer:04} {len(file):04} {file.hex()}\n"


def order_line(ids, buffer):
    """Order's answer, then every byte of the buffer."""
    if buffer < len(ids):
        return line("refused", 10, 0, *[FILL] * buffer)
    return line("ordered", len(ids), *ids, *[FILL] * (buffer - len(ids)))


def search_case(call, file0, file1, settings, given=b"", budget=0, buffer=0):
    """A line: the call, the lengths of its parts, the budget and the buffer's length, each of five digits, then the parts."""
    numbers = (len(file0), len(file1), len(settings), len(given), budget, buffer)
    return f"{call:5} " + "".join(f"{n:05} " for n in numbers) + (file0 + file1 + settings + given).hex() + "\n"


def listing_case(file0, file1, settings, budget=MAX_BUDGET):
    return search_case("lists", file0, file1, settings, budget=budget, buffer=2 * node_count(file1))


def record_bytes(record):
    kind, position = (*record.top, 0)[:2]
    numbers = (record.depth, 2), (TOPS[kind], 1), (position, 2), (record.accepted, 4)
    return b"".join(number.to_bytes(length, "big") for number, length in numbers) + record.path


def record_words(record):
    return ["record", record.depth, *record.top, record.accepted, *record.path]


def map_line(pairs):
    """A map's line, from the bytes that Continue fills in."""
    return line("map", *(f"{a}:{b}" for a, b in zip(pairs[0::2], pairs[1::2])))


def listing_answer(listing):
    return listing + END


def whole_listings(text):
    """The listings of a text of such answers."""
    return text.split(END)[:-1]


def write_list(program, cases, project=PROJECT):
    """Pairs of a case and its answer, as the input and the output of the program's crate."""
    crate = Path(project, "crates", program)
    crate.joinpath("stdin").write_text("".join(case for case, _ in cases))
    crate.joinpath("stdout").write_text("".join(answer for _, answer in cases))


def split_steps(listing):
    """The lines that the listing program prints, and the number of all steps."""
    lines, _, steps = listing.rpartition("steps ")
    return lines, int(steps.split()[0])


def maps_and_steps(listing):
    lines, steps = split_steps(listing)
    return int(lines.split()[-2]), steps
