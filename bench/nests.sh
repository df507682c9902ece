#!/usr/bin/env bash
# Time and peak memory of the bound of nested loops, by their depth and number, with 60,000 records, and of the refusal of
# functions in which one cycle behind many loops is entered at two places.
# The peak is at least that of the Python which starts the program, some 14,000 KiB.
# usage: bench/nests.sh [FOLDER]   (the files are made in FOLDER, or in a new one that is removed again)
set -eu
source "$(dirname "$0")/folder.sh"
./wcet 2>/dev/null || true # builds the program where it must
PYTHONPATH=bench PYTHONDONTWRITEBYTECODE=1 python3 - "$folder" <<'PYTHON'
"""Makes the files and runs the program on each."""
import os
import sys

from measure import START, run, write

RETURN = [0x03E00008, 0]
# A cycle of the units at 8, C and 10, with the branch to its last one before it.
ENTERED_TWICE = [0x10800003, 0, 0x2508FFFF, 0, 0x1500FFFD, 0]
RECORDS = 60000
BOUND = 3


def nests(depth, loops):
    """Nests of this depth one behind the other, of so many loops in all: their words, headers and bound.

    A nest is a header of 11 cycles for each loop, the outer ones first, then a branch with its slot back to each, the
    inner ones first, of 22 cycles. Each loop comes BOUND times.
    """
    words, headers = [], []
    count = loops // depth
    for _ in range(count):
        first = len(words)
        headers += [START + 4 * (first + level) for level in range(depth)]
        words += [0] * depth
        for level in reversed(range(depth)):
            words += [0x14800000 | (first + level - len(words) - 1) & 0xFFFF, 0]
    nest = 0
    for _ in range(depth):
        nest = BOUND * (11 + nest + 22)
    return words, headers, count * nest + 22


def tell(name, words, headers, units, wanted):
    """A line on the program of these words and a return behind them: its name, units, time, memory and answer."""
    # Each loop is named many times: by greater bounds, and once by its own.
    records = [(1, headers[at % len(headers)], BOUND + at // len(headers), 0) for at in range(RECORDS)]
    path = os.path.join(sys.argv[1], "-".join(name.split()))
    write(path, words + RETURN, records)
    answer, seconds, peak = run(path)
    mark = "" if answer == wanted else f"  WANTED {wanted}"
    print(f"{name}  {units:5} units  {seconds:6.3f} s  {peak:8} KiB  {answer}{mark}")


for depth, loops in [(depth, 840) for depth in range(1, 9)] + [(4, loops) for loops in (400, 800, 1600, 3200)] + [(8, loops) for loops in (8000, 16000, 32000)]:
    words, headers, bound = nests(depth, loops)
    tell(f"depth {depth}  {loops:5} loops", words, headers, 2 * loops + 1, f"bound {bound}")
for loops in (8000, 20000):
    words, headers, _ = nests(1, loops)
    refused = f"refused irreducible {START + 4 * len(words) + 8:08X}"
    tell(f"depth 1  {loops:5} loops, and a cycle entered twice", words + ENTERED_TWICE, headers, 2 * loops + 5, refused)
PYTHON
