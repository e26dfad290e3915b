#!/usr/bin/env python3
"""Holds the proved program compare to the lines of tools/library.py, on pairs of files made of a seed.

    pairs.py [COUNT [SEED]]

Status: 0 they print the same of each pair, 1 of one they do not.
"""

import os
import random
import subprocess
import sys
import tempfile

ROOT = os.path.join(os.path.dirname(os.path.abspath(__file__)), "..", "..")
sys.path += [os.path.join(ROOT, "tests", "serial"), os.path.join(ROOT, "tools")]
from library import File, Unfit, compare            # noqa: E402
from server import BYSTRODOL, Failed, check         # noqa: E402

INDEX, NOTE, NOTES, TEMPLATE = 128, 32, 16, 512
HEAD = INDEX + NOTE * NOTES
SECONDS = 60


def library(seeded, pages):
    """Any bytes, with index bits below the capacity alone."""
    stored = seeded.getrandbits(pages) & seeded.choice((seeded.getrandbits(pages), (1 << pages) - 1))
    return bytearray(stored.to_bytes(INDEX, "little") + seeded.randbytes(HEAD - INDEX + TEMPLATE * pages))


def turn(seeded, run, first, last):
    """Turns a bit of a byte from the first to before the last."""
    run[seeded.randrange(first, last)] ^= 1 << seeded.randrange(8)


def turn_index(seeded, run):
    page = seeded.randrange((len(run) - HEAD) // TEMPLATE)
    run[page // 8] ^= 1 << page % 8


def set_past(seeded, run):
    page = seeded.randrange((len(run) - HEAD) // TEMPLATE, 8 * INDEX)
    run[page // 8] |= 1 << page % 8


# What is done to the second of a pair, or to both. Most leave libraries that can be compared.
CHANGES = (
    lambda seeded, run: None,
    lambda seeded, run: turn(seeded, run, INDEX, HEAD),
    lambda seeded, run: turn(seeded, run, HEAD, len(run)),
    lambda seeded, run: turn(seeded, run, len(run) - 1, len(run)),
    turn_index,
    turn_index,
    set_past,
    lambda seeded, run: run.extend(bytes(seeded.choice((1, TEMPLATE)))),
    lambda seeded, run: run.__delitem__(slice(len(run) - seeded.choice((1, TEMPLATE)), None)),
    lambda seeded, run: run.__delitem__(slice(seeded.randrange(HEAD), None)),
)
CAPACITIES = (1, 2, 7, 8, 9, 64, 255, 256, 257, 999, 1000)


def pair_of(seeded):
    first = library(seeded, seeded.choice(CAPACITIES))
    second = bytearray(first)
    for _ in range(seeded.randrange(6)):
        change = seeded.choice(CHANGES[:6])
        change(seeded, second)
    if seeded.randrange(4) == 0:
        seeded.choice(CHANGES[6:])(seeded, seeded.choice((first, second)))
    if seeded.randrange(8) == 0:
        set_past(seeded, first) if len(first) > HEAD + TEMPLATE else first.clear()
    return seeded.sample((bytes(first), bytes(second)), 2)


def told_by_tools(names):
    try:
        lines = compare(*map(File, names))
    except Unfit as unfit:
        return "R%d\n" % unfit.refusal, 2
    return "".join(line + "\n" for line in lines), 1 if lines else 0


def told_by_program(names):
    ended = subprocess.run([BYSTRODOL, "compare", *names], stdin=subprocess.DEVNULL, capture_output=True, text=True, timeout=SECONDS)
    return ended.stdout, ended.returncode


def compare_pairs(folder, count, seed):
    seeded = random.Random(seed)
    names = [os.path.join(folder, name) for name in ("one-of-pair", "other-of-pair")]
    for number in range(count):
        for name, run in zip(names, pair_of(seeded)):
            with open(name, "wb") as file:
                file.write(run)
        tools, program = told_by_tools(names), told_by_program(names)
        check(tools == program, "pair %d of seed %d: the tools tell %s, and the program %s" % (number, seed, tools, program))
    for absent in (names[:1] + [folder], [names[0] + "-absent", names[0]]):
        tools, program = told_by_tools(absent), told_by_program(absent)
        check(tools == program == ("R1\n", 2), "%s: the tools tell %s, and the program %s" % (absent, tools, program))


def main(count=200, seed=1):
    with tempfile.TemporaryDirectory() as folder:
        try:
            compare_pairs(folder, int(count), int(seed))
        except Failed as failure:
            print("pairs: FAILED: %s" % failure)
            return 1
    print("pairs: of %s pairs of files of seed %s the program and the tools tell the same" % (count, seed))
    return 0


if __name__ == "__main__":
    sys.exit(main(*sys.argv[1:]))
