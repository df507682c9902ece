#!/usr/bin/env python3
"""Where a bound comes from: how often the dearest way comes to each unit, by the `value` lines of a certificate.

usage: ./wcet bound ELF [PROFILE] | examples/listing.py ELF [PROFILE]

A line is a place: times, cycles each time, their product, the context and the address. The last line has the sum.
"""
import os
import sys

sys.dont_write_bytecode = True
TOP = os.path.dirname(os.path.dirname(os.path.abspath(__file__)))
sys.path[:0] = [os.path.join(TOP, "tests"), os.path.join(TOP, "examples", "c")]
from cycles import profile_of  # noqa: E402
from executables import Profile  # noqa: E402
from nets import analysed  # noqa: E402
from program import Elf, Places  # noqa: E402
from second import Built  # noqa: E402


def main(path, profile=None):
    costs = profile_of(profile) if profile else Profile()
    elf, times, total = Elf(path), {}, 0
    net, _ = analysed(Built(elf), costs)
    for _, column, count in (line.split() for line in sys.stdin if line.startswith("value ")):
        place = net.arcs[int(column) - 1][1]
        times[place] = times.get(place, 0) + int(count)
    where = Places(elf, [unit.address for _, unit in net.places])
    for place in sorted(times.keys() - {0}):
        (context, unit), each = net.places[place - 1], net.cost(place, costs)
        total += times[place] * each
        print(f"{times[place]:>9} {each:>5} {times[place] * each:>12}  {context:>5}  {where.text(unit.address)}")
    print(f"{total:>28}  in all")


if __name__ == "__main__":
    if len(sys.argv) not in (2, 3):
        raise SystemExit(__doc__)
    main(*sys.argv[1:])
