#!/usr/bin/env bash
# Time and peak memory of the bound of programs with many calls, contexts, places and recorded targets.
# Each bound is checked against a formula. The peak is at least that of the Python which starts the program.
# usage: bench/calls.sh [FOLDER]   (the files are made in FOLDER, or in a new one that is removed again)
set -eu
source "$(dirname "$0")/folder.sh"
./wcet 2>/dev/null || true # builds the program where it must
PYTHONPATH=bench PYTHONDONTWRITEBYTECODE=1 python3 - "$folder" <<'PYTHON'
"""Makes the files and runs the program on each."""
import os
import sys

from measure import START, run, write

WORD = 11  # an instruction and its fetch, in cycles
RETURN = [0x03E00008, 0]


def call(address):
    """JAL with an empty slot."""
    return [0x0C000000 | address >> 2 & 0x3FFFFFF, 0]


def doubling(functions):
    """Each function calls the next one twice: 2^functions - 1 contexts."""
    words, bound = [], 2 * WORD
    for number in range(1, functions):
        words += call(START + 24 * number) * 2 + RETURN
        bound = 6 * WORD + 2 * bound
    return words + RETURN, [], bound


def leaves(functions):
    """One function calls each of the others, which return at once."""
    first = START + 8 * functions + 8
    words = [word for number in range(functions) for word in call(first + 8 * number)]
    return words + RETURN + RETURN * functions, [], (4 * functions + 2) * WORD


def table(targets):
    """A jump to a recorded table of returns."""
    records = [(2, START, START + 8 + 8 * number, 0) for number in range(targets)]
    return [0x01000008, 0] + RETURN * targets, records, 4 * WORD


def pointers(targets):
    """A call of four recorded sites, each to a quarter of the functions, which return at once."""
    quarter = targets // 4
    first = START + 8 * 5
    records = [
        (2, START + 8 * site, first + 8 * (quarter * site + number), 0)
        for site in range(4)
        for number in range(quarter)
    ]
    return [0x0100F809, 0] * 4 + RETURN + RETURN * 4 * quarter, records, (4 * 4 + 2) * WORD


def blocks(units, calls):
    """A function of so many units, called again and again."""
    first = START + 8 * calls + 8
    words = call(first) * calls + RETURN + [0x24080005] * (units - 1) + RETURN
    return words, [], calls * (2 * WORD + (units - 1) * WORD + 2 * WORD) + 2 * WORD


def nests(functions, turns):
    """Each function calls the next one twice in a loop, so that instances lie in one another."""
    words, records, bound = [], [], 2 * WORD
    for number in range(1, functions):
        head = START + 32 * (number - 1)
        words += call(head + 32) * 2 + [0x1500FFFB, 0] + RETURN
        records.append((1, head, turns, 0))
        bound = turns * (6 * WORD + 2 * bound) + 2 * WORD
    return words + RETURN, records, bound


def loops(functions, turns, records):
    """One function calls each of the others, a loop of one unit each, and each loop has so many records."""
    first = START + 8 * functions + 8
    words = [word for number in range(functions) for word in call(first + 16 * number)]
    words += RETURN + ([0x1480FFFF, 0] + RETURN) * functions
    marks = [
        (1, first + 16 * number + 4 * (turn % 2), turns + turn, 0)
        for turn in range(records)
        for number in range(functions)
    ]
    return words, marks, (functions * (4 + 2 * turns) + 2) * WORD


def unreached(words):
    """A function of one unit before words that nothing reaches."""
    return RETURN + [0] * (words - 2), [], 2 * WORD


CASES = [(doubling, count) for count in (8, 10, 12, 14)]
CASES += [(leaves, count) for count in (1000, 4000, 16000, 16383)]
CASES += [(table, count) for count in (1000, 8000, 60000)]
CASES += [(pointers, count) for count in (1000, 4000, 16000)]
CASES += [(blocks, 1000, calls) for calls in (8, 32, 64)]
CASES += [(nests, count, 2) for count in (6, 9, 12, 14)]
CASES += [(loops, count, 9, 60000 // count) for count in (1000, 4000, 16000)]
CASES += [(unreached, (1 << 22) - 32)]

for make, *sizes in CASES:
    words, records, bound = make(*sizes)
    path = os.path.join(sys.argv[1], "-".join([make.__name__, *map(str, sizes)]))
    write(path, words, records)
    answer, seconds, peak = run(path)
    mark = "" if answer == f"bound {bound}" else f"  WANTED bound {bound}"
    print(f"{make.__name__:9} {' '.join(map(str, sizes)):>10}  {seconds:6.3f} s  {peak:8} KiB  {answer}{mark}")
PYTHON
