#!/usr/bin/env python3
"""Tries examples/listing.py on certificates and files whose places, counts and cycles were worked out by hand.

usage: tests/listing.py

A plain unit takes 11 cycles under the plain profile, and one with a slot 22. The last line is 'N passed, N failed'.
"""
import os
import subprocess
import sys
import tempfile

sys.dont_write_bytecode = True
from byhand import called_loop, counted_loop  # noqa: E402
from executables import START, Image  # noqa: E402

TOP = os.path.dirname(os.path.dirname(os.path.abspath(__file__)))
RETURN = os.path.join(TOP, "examples", "return.elf")
ONCE = "bound 22\nreached 22\nvalue 1 1\nvalue 2 1\nleaf 1 1:22\nend\n"
# Arcs: 0-1, 1-2, 2-3, 3-2, 3-4, 4-0. The header, place 2, is visited five times.
TURNS = "bound 198\nreached 198\nvalue 1 1\nvalue 2 1\nvalue 3 5\nvalue 4 4\nvalue 5 1\nvalue 6 1\nend\n"
TURNS_LISTED = [
    "1 11 11 0 00400000 (spin+0x0)",
    "5 11 55 0 00400004 (spin+0x4)",
    "5 22 110 0 00400008 (spin+0x8)",
    "1 22 22 0 00400010 (spin+0x10)",
    "198 in all",
]
# Arcs: 0-1, 1-2, 2-3, 3-8, 4-5, 5-3, 5-6, 6-7, 7-0, 8-9, 9-8, 9-10, 10-4. Two calls, in each of them three visits.
CALLS = "".join(f"value {arc} {count}\n" for arc, count in enumerate([1, 1, 1, 2, 2, 1, 1, 1, 1, 6, 4, 2, 2], 1))
CALLS_LISTED = [
    "1 11 11 0 00400000 (main+0x0)",
    "1 11 11 0 00400004 (main+0x4)",
    "2 22 44 0 00400008 (main+0x8)",
    "2 11 22 0 00400010 (main+0x10)",
    "2 22 44 0 00400014 (main+0x14)",
    "1 11 11 0 0040001C (main+0x1c)",
    "1 22 22 0 00400020 (main+0x20)",
    "6 11 66 1 00400028 (turns+0x0)",
    "6 22 132 1 0040002C (turns+0x4)",
    "2 22 44 1 00400034 (turns+0xc)",
    "407 in all",
]


def listed(certificate, *files):
    """The status of the listing, and its lines with single spaces."""
    words = [sys.executable, os.path.join(TOP, "examples", "listing.py"), *files]
    ran = subprocess.run(words, input=certificate, capture_output=True, text=True)
    return ran.returncode, [" ".join(line.split()) for line in ran.stdout.splitlines()]


def trials(folder):
    """Each trial with whether it passes."""
    def made(name, data):
        path = os.path.join(folder, name)
        with open(path, "wb") as out:
            out.write(data)
        return path

    words, records, _ = counted_loop(5)
    spin = made("spin.elf", Image(words, records, [("spin", START, 1)]).file())
    words, records, _ = called_loop()
    main = made("main.elf", Image(words, records, [("main", START, 1), ("turns", START + 0x28, 1)]).file())
    # Two fetches of 3, the jump's 2 cycles, and one of the instruction in its slot.
    costs = made("costs.toml", b"memory = 3\n[cycles]\njump = 2\n")
    entry = made("entry.toml", b'entry = "turns"\n')
    yield "a function that returns", listed(ONCE, RETURN) == (0, ["1 22 22 0 00400000 (?)", "22 in all"])
    yield "a loop", listed(TURNS, spin) == (0, TURNS_LISTED)
    yield "a call", listed(CALLS, main) == (0, CALLS_LISTED)
    yield "no file", listed(ONCE)[0] != 0
    if sys.version_info < (3, 11):
        print("skipped: profiles are read by Python 3.11 and later")
        return
    yield "the costs of a profile", listed(ONCE, RETURN, costs) == (0, ["1 9 9 0 00400000 (?)", "9 in all"])
    own = ["1 11 11 0 00400028 (turns+0x0)", "11 in all"]
    yield "the entry of a profile", listed("value 1 1\n", main, entry) == (0, own)


def main():
    """Runs the trials; answers the exit status."""
    with tempfile.TemporaryDirectory() as folder:
        results = list(trials(folder))
    for name, passes in results:
        if not passes:
            print(f"failed: {name}")
    failed = sum(not passes for _, passes in results)
    print(f"listing: {len(results) - failed} passed, {failed} failed")
    return 1 if failed else 0


if __name__ == "__main__":
    sys.exit(main())
