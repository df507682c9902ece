#!/usr/bin/env python3
"""Whether a traced run kept the records of its program.

usage: kept.py ELF TRACE FUNCTION, as kept.py out/sort.elf out/sort.trace task

TRACE is what `qemu-mips -singlestep -d exec,nochain,cpu -D TRACE ELF` writes. All runs of the function in it are looked
at, from its call to its return:

    loop A: visited N of B          the most visits from one entering of the loop to the next, and its bound
    transfer A: N of M targets      of the recorded targets so many were gone to
    range A: N accesses             so many lay in the bytes that the record gives
    stack: N bytes                  how far the run went below the stack pointer that it began with
    broken: ..                      what the run did against a record; the bound says nothing of such a run

A loop that visits less than its bound is no fault, but the bound may be too great. Another run may do what this one
doesn't. The status is 1 where a record was broken.
"""
import sys

sys.dont_write_bytecode = True
from program import LOADS, RANGE, Code, Elf, Places, bounds, functions  # noqa: E402
from traces import calls, opened, units  # noqa: E402

STACK_POINTER = 29
# How many bytes a load or store has. The other ones take a part of an aligned word.
SIZES = {32: 1, 36: 1, 40: 1, 33: 2, 37: 2, 41: 2}
PARTS = (34, 38, 42, 46)


class Frame:
    """A call that hasn't returned: its function, where it returns to, and the visits of each loop that it is in."""

    def __init__(self, function, back):
        self.function, self.back, self.last, self.visits = function, back, None, {}


class Watch:
    """What the runs of a function did at its records."""

    def __init__(self, elf, entry):
        self.elf, self.code, self.entry = elf, Code(elf), entry
        self.functions = functions(self.code, entry)
        self.bounds = {}
        for function in self.functions.values():
            self.add_loops(function)
        self.targets = {
            unit: set() for function in self.functions.values() for unit in function.next if self.is_recorded(unit)
        }
        self.ranges = {}
        for kind, address, x, y in elf.records:
            if kind == RANGE:
                self.ranges.setdefault(address, []).append((x, y))
        self.inside = dict.fromkeys(self.ranges, 0)
        self.visits, self.stack, self.runs, self.broken = {}, None, 0, []

    def is_recorded(self, address):
        """Whether a transfer needs records of where it goes."""
        return self.code.is_indirect(address) and not self.code.is_jump_to_link(address)

    def add_loops(self, function):
        """The bounds of a function's loops. Code that two functions share has the least one of both."""
        for header, found in bounds(self.elf, self.code, function).items():
            told = [bound.visits for bound in found] + [self.bounds.get(header)]
            self.bounds[header] = min((visits for visits in told if visits is not None), default=None)

    def add_functions(self, entry):
        """What is called without a record leads to functions of its own."""
        for address, function in functions(self.code, entry).items():
            if self.functions.setdefault(address, function) is function:
                self.add_loops(function)

    def breaks(self, *words):
        """Keeps what broke a record, once: text, with addresses between."""
        if words not in self.broken:
            self.broken.append(words)

    def run(self, steps):
        """Follows one run of the function."""
        self.runs += 1
        frames = [Frame(self.functions[self.entry], None)]
        top = steps[0].registers[STACK_POINTER] if steps[0].registers else None
        for address, parts, onward in units(self.code, steps):
            self.visit(frames[-1], address)
            for step in parts:
                self.access(step)
                if step.registers:
                    self.stack = max(self.stack or 0, top - step.registers[STACK_POINTER])
            if self.code.is_transfer(address):
                self.transfer(frames, address, onward)

    def visit(self, frame, address):
        """Counts the visits of the headers: an arrival from outside of a loop's body enters it."""
        if address not in frame.function.next:
            self.breaks("the run is at", address, "where no recorded way leads")
        if address in frame.function.loops:
            within = frame.last in frame.function.loops[address]
            count = frame.visits[address] + 1 if within else 1
            frame.visits[address] = count
            self.visits[address] = max(self.visits.get(address, 0), count)
        frame.last = address

    def access(self, step):
        """Looks whether a load or store lies in the bytes of its records."""
        if step.address not in self.ranges or not step.registers or not self.code.is_access(step.address):
            return
        word = self.code.words[step.address]
        offset = (word & 0xFFFF ^ 0x8000) - 0x8000
        first = (step.registers[word >> 21 & 31] + offset) % 2 ** 32
        first -= first % 4 if word >> 26 in PARTS else 0
        end = first + SIZES.get(word >> 26, 4)
        if all(x <= first and end <= y for x, y in self.ranges[step.address]):
            self.inside[step.address] += 1
        else:
            kind = "load" if word >> 26 in LOADS else "store"
            self.breaks(f"the {kind} at", step.address, f"touches {first:08X} to below {end:08X}, outside its range")

    def transfer(self, frames, address, onward):
        """Goes along a call or a return, and looks whether an indirect transfer has a record of where it goes."""
        if self.is_recorded(address) and onward is not None:
            self.targets.setdefault(address, set()).add(onward)
            if onward not in self.code.targets.get(address, ()):
                self.breaks("the transfer at", address, "goes to", onward, "which isn't recorded")
        if self.code.is_jump_to_link(address):
            if onward != frames.pop().back:
                self.breaks("the return at", address, "comes back elsewhere than after its call")
            if not frames:
                frames.append(Frame(self.functions[self.entry], None))
        elif self.code.links(address) and onward not in (None, address + 8):
            if onward not in self.functions:
                self.add_functions(onward)
            frames.append(Frame(self.functions[onward], address + 8))

    def find_too_many(self):
        """The loops whose headers were visited more often than their records say."""
        for header, visits in sorted(self.visits.items()):
            bound = self.bounds[header]
            if bound is not None and visits > bound:
                self.breaks("the loop at", header, f"is visited {visits} times, and its record says {bound}")

    def lines(self):
        """What was seen, with the records that were broken at the end."""
        shown = list(self.bounds) + list(self.targets) + list(self.ranges)
        places = Places(self.elf, shown + [word for words in self.broken for word in words if isinstance(word, int)])
        yield f"runs: {self.runs}"
        for header in sorted(self.bounds):
            bound = self.bounds[header]
            yield f"loop {places.text(header)}: visited {self.visits.get(header, 0)}" + (
                ", without a record" if bound is None else f" of {bound}"
            )
        for address in sorted(self.targets):
            recorded = self.code.targets.get(address, set())
            met = len(self.targets[address] & recorded)
            yield f"transfer {places.text(address)}: {met} of {len(recorded)} targets"
        for address in sorted(self.ranges):
            yield f"range {places.text(address)}: {self.inside[address]} accesses"
        yield "ranges and stack: not looked at, since the trace has no registers" if self.stack is None else (
            f"stack: {self.stack} bytes"
        )
        for words in self.broken:
            yield "broken: " + " ".join(places.text(word) if isinstance(word, int) else word for word in words)


def main(path, trace, name):
    elf = Elf(path)
    watch = Watch(elf, elf.address_of(name))
    with opened(trace, path) as lines:
        for steps in calls(lines, watch.entry):
            watch.run(steps)
    if watch.runs == 0:
        raise SystemExit(f"{trace}: no call of {name}")
    watch.find_too_many()
    print("\n".join(watch.lines()))
    return 1 if watch.broken else 0


if __name__ == "__main__":
    if len(sys.argv) != 4:
        raise SystemExit(__doc__)
    sys.exit(main(*sys.argv[1:]))
