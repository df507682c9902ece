#!/usr/bin/env python3
"""The reading of code by the tools of examples/c (program.py) against that by the tests' own graphs and nets.

A record that the tools take for one loop's, and the analyser for another's, would give a bound that is too low without
a word. So both readings must be alike on files that were worked out by hand and on drawn ones: the functions, the units
and bodies of their loops, the least record of each loop, the contexts and places, and the loop for which a file is
refused. certificate.py compares the graphs with the analyser.

The last line is 'N passed, N failed'; the status is 0 only where none failed.
"""
import os
import sys
import tempfile

sys.dont_write_bytecode = True
sys.path.insert(0, os.path.join(os.path.dirname(os.path.abspath(__file__)), "..", "examples", "c"))
import graphs  # noqa: E402
import program  # noqa: E402
from byhand import BOUNDS, TRIALS  # noqa: E402
from certificate import PLAIN, Tally  # noqa: E402
from drawn import drawn  # noqa: E402
from executables import Image  # noqa: E402
from nets import Net  # noqa: E402
from withcalls import REFUSED, WORKED  # noqa: E402

DRAWN = range(1, 401)
# How many of the drawn files have a call that never comes back, at the least: without it this test would say little.
DEAD_ENDS = 10
# Files refused for these are not compared: the tools read past such a fault, and the analyser stops at it.
UNLIKE = (
    "no-symbol", "writable-code", "unknown-word", "transfer-in-slot", "unknown-target", "link-register", "recursion",
    "irreducible", "never-returns", "too-many-units",
)


class Reading:
    """What the tools read of a file."""

    def __init__(self, path, name):
        self.elf = program.Elf(path)
        self.code = program.Code(self.elf)
        self.entry = self.elf.entry if name is None else self.elf.address_of(name)
        self.functions = program.functions(self.code, self.entry)
        self.bounds = {}
        for entry, function in self.functions.items():
            for header, found in program.bounds(self.elf, self.code, function).items():
                self.bounds[entry, header] = min((bound.visits for bound in found), default=None)

    def loops(self):
        return {
            (entry, header): (frozenset(body), self.bounds[entry, header])
            for entry, function in self.functions.items() for header, body in function.loops.items()
        }

    def units(self):
        return {entry: frozenset(function.next) for entry, function in self.functions.items()}

    def without_records(self):
        """The line of the loop that the analyser would refuse first."""
        headers = [header for (_, header), bound in self.bounds.items() if bound is None]
        return f"refused no-bound {min(headers):08X}" if headers else "a bound of each loop"


def compare(tally, name, image, profile, path):
    """Both readings of a file. It gives how many calls never come back."""
    with open(path, "wb") as file:
        file.write(image.file())
    try:
        entry = image.entry if profile.entry is None else image.symbol(profile.entry)
        if entry is None:
            return 0
        graph = graphs.functions(image, entry)
        net = Net(graph, entry)
    except graphs.Refused as refused:
        if refused.kind not in UNLIKE:
            gave = Reading(path, profile.entry).without_records()
            tally.check(f"{name}: the loop without a record", gave, str(refused))
        return 0
    reading = Reading(path, profile.entry)
    tally.check(f"{name}: units", reading.units(), {start: frozenset(graph[start].units) for start in graph})
    tally.check(f"{name}: loops", reading.loops(), {
        (start, loop.header): (frozenset(loop.body), loop.bound) for start in graph for loop in graph[start].loops
    })
    sizes = program.size(reading.functions, reading.entry)
    tally.check(f"{name}: contexts and places", sizes, (len(net.contexts), len(net.places)))
    return sum(len(function.dead_ends) for function in reading.functions.values())


def main():
    tally = Tally()
    files = [(name, Image(words, records), PLAIN) for name, (words, records, _), _, _ in TRIALS]
    files += [(name, Image(words, records), PLAIN) for name, words, records, _ in BOUNDS]
    files += [worked[:3] for worked in WORKED + REFUSED]
    files += [(f"drawn file {number}", *drawn(number)) for number in DRAWN]
    with tempfile.TemporaryDirectory() as folder:
        ends = [compare(tally, *file, os.path.join(folder, "file")) for file in files]
    tally.check("files with a call that never comes back", sum(map(bool, ends)) >= DEAD_ENDS, True)
    print(f"{tally.passed} passed, {tally.failed} failed")
    return 0 if tally.failed == 0 else 1


if __name__ == "__main__":
    sys.exit(main())
