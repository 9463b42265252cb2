"""The programs, asked many cases in one run, and the cases whose answers differ from what was expected."""
import os
import subprocess
import tempfile
from typing import NamedTuple

from case_lines import whole_listings
from packed import write_files


class Difference(NamedTuple):
    case: object
    expected: str
    ours: str


def run(command, text):
    return subprocess.run(command, input=text, stdout=subprocess.PIPE, text=True).stdout


def padded(answers, cases):
    """An answer for each case: an empty one where the program ended before."""
    return answers + [""] * (len(cases) - len(answers))


def line_answers(program, cases):
    return padded(run([program], "".join(cases)).splitlines(keepends=True), cases)


def listing_answers(program, cases):
    return padded(whole_listings(run([program], "".join(cases))), cases)


def printed_listing(program, files):
    """What the listing program prints for these files."""
    with tempfile.TemporaryDirectory() as folder:
        write_files(folder, files)
        return subprocess.run([os.path.abspath(program)], cwd=folder, stdout=subprocess.PIPE, text=True).stdout


def differences(cases, expected, ours):
    return [Difference(*each) for each in zip(cases, expected, ours) if each[1] != each[2]]


def batches(count, most):
    """How many cases each run gets, so that they are so many together."""
    return [min(most, count - start) for start in range(0, count, most)]
