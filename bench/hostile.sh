#!/usr/bin/env bash
# Time and peak memory of the answers to small files whose functions, calls and loops share much: a tool that is handed files
# by strangers has to answer them too. A refused file may take 10 seconds, and ten times its bytes and 64 MB.
# Each answer is checked. The peak is at least that of the Python which starts the program, some 14,000 KiB. A run that takes
# more than 20 seconds or 4 GB is ended. The last lines tell those above the limits, and the status is 0 only where none is.
# usage: bench/hostile.sh [FOLDER]   (the files are made in FOLDER, or in a new one that is removed again)
set -eu
source "$(dirname "$0")/folder.sh"
./wcet 2>/dev/null || true # builds the program where it must
PYTHONPATH=bench PYTHONDONTWRITEBYTECODE=1 python3 - "$folder" <<'PYTHON'
"""Makes the files and runs the program on each."""
import os
import resource
import subprocess
import sys
import time

from measure import PROGRAM, START, write

WORD = 11  # an instruction and its fetch, in cycles
RETURN = [0x03E00008, 0]
SECONDS, MOST_SECONDS = 10, 20
MEMORY, MOST_MEMORY = 64 << 20, 4 << 30


def call(address):
    """JAL with an empty slot."""
    return [0x0C000000 | address >> 2 & 0x3FFFFFF, 0]


def jump(address):
    """J with an empty slot."""
    return [0x08000000 | address >> 2 & 0x3FFFFFF, 0]


def many():
    return f"refused too-many-units {START:08X}"


def forward(calls):
    """Each call is of the next unit, so that each function runs into all behind it."""
    code = [word for number in range(1, calls + 1) for word in call(START + 8 * number)]
    return code + RETURN, [], many()


def backward(calls):
    """Each call, by a branch that may go on instead, is of the unit before it: each function runs into the call of itself."""
    code = jump(START + 12 + 8 * (calls - 1)) + [0]
    for number in range(calls):
        code += [0x04910000 | (-3 if number else -2) & 0xFFFF, 0]
    return code + RETURN, [], f"refused recursion {START + 8:08X}"


def table(units):
    """A jump whose recorded targets are all units of straight code."""
    records = [(2, START, START + 8 + 4 * number, 0) for number in range(units)]
    bound = f"bound {(2 + units + 2) * WORD}" if units + 2 <= 65536 else many()
    return [0x01000008, 0] + [0] * units + RETURN, records, bound


def words(units):
    """A call whose recorded targets are all units of straight code: each word begins a function."""
    first = START + 16
    records = [(2, START, first + 4 * number, 0) for number in range(units)]
    return [0x0100F809, 0] + RETURN + [0] * units + RETURN, records, many()


def nest(depth):
    """Loops in one another, each of which may turn once. Far headers are come to by a jump behind a branch."""
    code, records = [0] * depth, [(1, START + 4 * level, 1, 0) for level in range(depth)]
    far = 3 * depth > 32000
    for level in reversed(range(depth)):
        if far:
            code += [0x14800003, 0] + jump(START + 4 * level)
        else:
            code += [0x14800000 | (level - len(code) - 1) & 0xFFFF, 0]
    return code + RETURN, records, f"bound {(depth + 2 * depth + 2) * WORD}"


def ladder(rungs):
    """Loops one behind the other, and behind them a cycle that is entered at two places."""
    code, records = [], []
    for _ in range(rungs):
        records.append((1, START + 4 * len(code), 2, 0))
        code += [0, 0x1480FFFE, 0]
    ends = [0x10800003, 0, 0x2508FFFF, 0, 0x1500FFFD, 0]
    return code + ends + RETURN, records, f"refused irreducible {START + 4 * len(code) + 8:08X}"


def limit():
    resource.setrlimit(resource.RLIMIT_AS, (MOST_MEMORY, MOST_MEMORY))


def run(path):
    """The answer's first line, the seconds and the peak of memory in KiB."""
    before = time.monotonic()
    child = subprocess.Popen(
        ["timeout", str(MOST_SECONDS), PROGRAM, "analyse", path], stdout=subprocess.PIPE, preexec_fn=limit
    )
    answer = child.stdout.read().decode().split("\n")[0]
    _, _, usage = os.wait4(child.pid, 0)
    return answer or "no answer", time.monotonic() - before, usage.ru_maxrss


CASES = [(forward, count) for count in (1000, 4000, 16000, 250000, 2000000)]
CASES += [(backward, count) for count in (1000, 4000, 16000, 250000, 2000000)]
CASES += [(table, count) for count in (1000, 16000, 60000)]
CASES += [(words, count) for count in (1000, 4000, 16000, 60000)]
CASES += [(nest, count) for count in (1000, 2000, 4000, 8000, 16000)]
CASES += [(ladder, count) for count in (1000, 4000, 16000)]

over = []
for make, size in CASES:
    code, records, wanted = make(size)
    path = os.path.join(sys.argv[1], f"{make.__name__}-{size}")
    write(path, code, records)
    count = os.path.getsize(path)
    answer, seconds, peak = run(path)
    line = f"{make.__name__:9} {size:8}  {count:9} bytes  {seconds:7.3f} s  {peak:9} KiB  {answer}"
    if answer != wanted:
        line += f"  WANTED {wanted}"
    print(line, flush=True)
    if answer != wanted or wanted.startswith("refused") and (seconds > SECONDS or peak << 10 > 10 * count + MEMORY):
        over.append(line)
    os.remove(path)
print("== above the limits, or another answer:")
print("\n".join(over))
sys.exit(1 if over else 0)
PYTHON
