#!/usr/bin/env bash
# The solver's time over a chain, diamonds and nests of depth 8, by their places; making and testing the net is among it. The
# steps and the last number are checked: each place of a chain or of diamonds takes one step, and a nest of 16 places takes 25.
# usage: bench/fixpoint.sh
set -eu
cd "$(dirname "$0")/.."
program=crates/fixpoint_bench/out/fixpoint_bench
[ -x "$program" ] || (cd crates/fixpoint_bench && rt run <stdin >/dev/null)
python3 - "$program" <<'PYTHON'
"""Runs each shape at each size twenty-five times, and prints the least time and the median."""
import statistics
import subprocess
import sys
import time

UNIT = {"chain": (1, 1), "diamonds": (4, 4), "nests": (16, 25)}  # the places of one part, and its steps

for shape, (size, steps) in UNIT.items():
    for places in (16_000, 32_000, 65_000):
        parts = places // size
        # The greatest number that a place leaves is that of the last place before the end that is 9 by 16; the last place of a
        # chain or of diamonds comes after it.
        last = (parts * size - 10) // 16 * 16 + 9
        wanted = f"{shape} {places}: {parts * steps} steps, {last} before the last place\n"
        seconds = []
        for _turn in range(25):
            start = time.perf_counter()
            answer = subprocess.run([sys.argv[1]], input=f"{shape} {places}\n", capture_output=True, text=True, check=True).stdout
            seconds.append(time.perf_counter() - start)
        mark = "" if answer == wanted else f"  WANTED {wanted}"
        print(f"{min(seconds):6.4f} s  {statistics.median(seconds):6.4f} s  {answer.strip()}{mark}")
PYTHON
