#!/usr/bin/env python3
"""Respells the repository's own definitions, fields and facts as today's Rattle does: words in snake case, facts in camel case.

    python3 tools/respell.py          at the top of the repository, once

Names are whole words of specs/, proofs/ and the clauses of src/: a name in camel case, a hyphenated definition of specs/, and a
hyphenated field or definition of proofs/, wherever the same name stands. Other lemmas keep their hyphens, which stand between the
words of their statements. Rust's functions, text and numbers keep their names.
"""
import glob
import re
import sys

NAME = r"[A-Za-z_⊎∥][A-Za-z0-9_'₀-₉⊎·-]*"
TOKEN = re.compile(NAME)
HEAD = re.compile(r"^ *((?:abbrev |unfoldable |pub |record |data )*)(" + NAME + r")(?: *\([^)]*\)| *\{[^}]*\})* *:")
# names that a rule of spelling does not give
GIVEN = {
    "refuses": "Refuses",
    "conn-in": "conn_in_counts",
    "conn-out": "conn_out_counts",
    "in-degree": "in_degrees",
    "out-degree": "out_degrees",
    "top-offered": "offered_top",
    "continue-says": "says_continue",
}
# local names that would fall together with a definition that the file cites
LOCAL = {
    "crates/placements/proofs/Passes.antt": {"each_way": "each_side"},
    "crates/promises/proofs/Continued.antt": {"went_on": "goes_on"},
    "crates/step/proofs/Followed.antt": {"in_list": "in_candidates"},
}


def files():
    return sorted(
        glob.glob("crates/*/specs/**/*.antt", recursive=True)
        + glob.glob("crates/*/proofs/**/*.antt", recursive=True)
        + glob.glob("crates/*/src/*.rt")
    )


def snake(name):
    name = re.sub(r"([a-z0-9])([A-Z])", lambda m: m.group(1) + "_" + m.group(2).lower(), name)
    return name.replace("-", "_")


def heads(path):
    """The names that a file of antt declares: (name, is a word and no lemma)."""
    depth = None
    for line in open(path):
        inside = len(line) - len(line.lstrip())
        if line.strip().startswith("--") or not line.strip():
            continue
        if depth is not None and inside <= depth:
            depth = None
        m = HEAD.match(line)
        if m:
            words = m.group(1).split()
            field = depth is not None and inside == depth + 2
            yield m.group(2), field or "abbrev" in words or "unfoldable" in words
        if re.match(r" *(pub )?(record|data) ", line):
            depth = inside


def names():
    taken, wanted = set(), {}
    for path in files():
        antt = path.endswith(".antt")
        for line in open(path):
            taken.update(TOKEN.findall(line.split("--")[0] if antt else line))
    for name in taken:
        if re.match(r"[a-z]", name) and re.search(r"[a-z0-9][A-Z]", name) and not name.startswith("getD"):
            wanted[name] = snake(name)
        elif name.startswith("getD-"):
            wanted[name] = "get_or" + name[4:]
    for path in files():
        if path.endswith(".antt") and not re.search(r"proofs/.*/Proof\.antt$", path):
            for name, word in heads(path):
                if "-" in name.strip("-") and word:
                    wanted[name] = snake(name)
    wanted.update(GIVEN)
    return taken, wanted


def main():
    taken, wanted = names()
    homes = {}
    for name, new in wanted.items():
        homes.setdefault(new, []).append(name)
    for new, old in sorted(homes.items()):
        if len(old) > 1 or new in taken:
            print("falls together:", new, "from", old, "(stands already)" if new in taken else "")
    if "--look" in sys.argv:
        for name in sorted(wanted):
            print(name, wanted[name])
        return
    for path in files():
        text = open(path).read()
        here = {**wanted, **LOCAL.get(path, {})}
        out = []
        for line in text.split("\n"):
            code, mark, rest = line.partition("--") if path.endswith(".antt") else (line, "", "")
            code = TOKEN.sub(lambda m: here.get(m.group(0), m.group(0)), code)
            rest = re.sub(r"`[^`]*`", lambda m: TOKEN.sub(lambda n: here.get(n.group(0), n.group(0)), m.group(0)), rest)
            out.append(code + mark + rest)
        new = "\n".join(out)
        if new != text:
            open(path, "w").write(new)


main()
