"""The words that a script is called with."""
import argparse


def words_of(text):
    """A parser whose help is the script's own text."""
    return argparse.ArgumentParser(description=text, formatter_class=argparse.RawDescriptionHelpFormatter)


def add_programs(words, *names, required=True):
    for name in names:
        words.add_argument(f"--{name}", metavar="PROGRAM", required=required)


def add_random_cases(words, count):
    words.add_argument("--seed", metavar="S", type=int, default=1)
    words.add_argument("--count", metavar="K", type=int, default=count)


def oracle_alone(text):
    """The path of the oracle, for a script that takes nothing else."""
    words = words_of(text)
    words.add_argument("oracle", metavar="ORACLE")
    return words.parse_args().oracle
