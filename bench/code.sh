#!/usr/bin/env bash
# Time and peak memory of the bound of straight code and of chains of diamonds, by their units.
# The peak is at least that of the Python which starts the program, some 14,000 KiB.
# usage: bench/code.sh [FOLDER]   (the files are made in FOLDER, or in a new one that is removed again)
set -eu
source "$(dirname "$0")/folder.sh"
./wcet 2>/dev/null || true # builds the program where it must
PYTHONPATH=bench PYTHONDONTWRITEBYTECODE=1 python3 - "$folder" <<'PYTHON'
"""Makes the files and runs the program on each."""
import os
import sys

from measure import run, write

RETURN = [0x03E00008, 0]
SIZES = [1000, 2000, 4000, 8000, 16000, 32000, 65000]


def straight(units):
    """Plain instructions, then the return: 11 cycles each, and 22."""
    return [0x24080005] * (units - 1) + RETURN, 11 * (units - 1) + 22


def diamonds(units):
    """Pairs of a branch with its slot over one instruction, then the return: 22 or 33 cycles a pair, and 22."""
    pairs = units // 2
    return [0x10800002, 0, 0x24080005] * pairs + RETURN, 33 * pairs + 22


for make in (straight, diamonds):
    for units in SIZES:
        words, bound = make(units)
        path = os.path.join(sys.argv[1], f"{make.__name__}-{units}")
        write(path, words)
        answer, seconds, peak = run(path)
        mark = "" if answer == f"bound {bound}" else f"  WANTED bound {bound}"
        print(f"{make.__name__:9} {units:6} units  {seconds:6.3f} s  {peak:8} KiB  {answer}{mark}")
PYTHON
