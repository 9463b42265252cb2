"""Questions to the oracle, a program around the Rust's VF2 module (tests/README.md)."""
from case_lines import whole_listings
from programs import run


def ask(oracle, questions):
    return run([oracle, "--stream"], "".join(questions))


def expect_number(answers, number):
    if len(answers) != number:
        raise SystemExit(f"the oracle gave {len(answers)} answers to {number} questions")


def rust_orders(oracle, files):
    """For each file the pair of its orders, by id and VF2++."""
    answers = ask(oracle, [f"O {file.hex()} {plus_plus}\n" for file in files for plus_plus in (0, 1)]).splitlines()
    expect_number(answers, 2 * len(files))
    orders = [[int(word) for word in line.split()] for line in answers]
    return list(zip(orders[0::2], orders[1::2]))


def rust_listings(oracle, searches):
    """For each (file 0, file 1, settings) the Rust's listing with its steps, in the answer_searches program's form."""
    answers = whole_listings(ask(oracle, ["L " + " ".join(file.hex() for file in files) + "\n" for files in searches]))
    expect_number(answers, len(searches))
    return answers
