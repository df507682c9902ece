#!/usr/bin/env python3
"""What a built program costs without the analyser: by a sheet, and by the trace of a run.

usage: cycles.py run ELF TRACE [PROFILE]   the cycles of the dearest traced run of the profile's entry, from call to return
       cycles.py sum ELF SHEET [PROFILE]   the cycles that the sheet adds up
       cycles.py code ELF                  the checksum of the code and its records

Without PROFILE, which is read by Python 3.11 and later, the costs are the plain ones and the entry is `task`. A trace is
what QEMU writes (examples/c/traces.py). A sheet (examples/c/sums) was written by hand beside a disassembly. Each line
`TIMES FIRST LAST ..` of it says that the instructions from FIRST to LAST run so often in the dearest way that the records
allow.
"""
import hashlib
import os
import re
import sys

sys.dont_write_bytecode = True
sys.path.insert(0, os.path.join(os.path.dirname(os.path.abspath(__file__)), "..", "examples", "c"))
from executables import Profile  # noqa: E402
from instructions import Instruction  # noqa: E402
from program import Elf  # noqa: E402
from traces import calls, opened  # noqa: E402


def profile_of(path):
    """The costs and the entry that a profile's text gives."""
    import tomllib
    with open(path, "rb") as file:
        told = tomllib.load(file)
    if told.get("cache"):
        raise SystemExit(f"{path}: the cycles of caches aren't added up here")
    costs = {name: told[name] for name in ("memory", "store", "cycles") if name in told}
    return Profile(entry=told.get("entry"), **costs)


def price(elf, profile, address):
    """The cycles of an instruction: its class's, its fetch, and its load or store."""
    kind = Instruction(elf.words[address]).kind
    if kind is None:
        raise SystemExit(f"no instruction stands at {address:08X}")
    own = {"load": profile.memory, "store": profile.store}.get(kind, 0)
    return profile.cycles[kind] + profile.memory + own


def added(elf, sheet, profile):
    """The sum of a sheet's lines."""
    total = 0
    for line in sheet:
        found = re.match(r"(\d+) +([0-9A-F]{8}) ([0-9A-F]{8})\b", line)
        if found:
            first, last = int(found[2], 16), int(found[3], 16)
            total += int(found[1]) * sum(price(elf, profile, address) for address in range(first, last + 4, 4))
    return total


def traced(elf, trace, profile):
    """The cycles of the dearest run of the entry."""
    entry = elf.entry if profile.entry is None else elf.address_of(profile.entry)
    sums = [sum(price(elf, profile, step.address) for step in steps) for steps in calls(trace, entry)]
    if not sums:
        raise SystemExit("the trace has no call of the entry")
    return max(sums)


def checksum(elf):
    """Over the words of the code with their addresses, constants behind them among it, and the records."""
    text = "".join(f"{address:08X} {word:08X}\n" for address, word in sorted(elf.words.items()))
    text += "".join("%d %08X %08X %08X\n" % record for record in elf.records)
    return hashlib.sha256(text.encode()).hexdigest()


def main(words):
    if len(words) == 2 and words[0] == "code":
        return checksum(Elf(words[1]))
    if len(words) in (3, 4) and words[0] in ("sum", "run"):
        profile = profile_of(words[3]) if len(words) == 4 else Profile(entry="task")
        with opened(words[2], words[1]) if words[0] == "run" else open(words[2]) as file:
            return (added if words[0] == "sum" else traced)(Elf(words[1]), file, profile)
    raise SystemExit(__doc__)


if __name__ == "__main__":
    print(main(sys.argv[1:]))
