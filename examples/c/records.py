#!/usr/bin/env python3
"""What each record of a built program says, and which of them stand in a wrong place.

usage: records.py ELF FUNCTION, as records.py out/sort.elf task

It reads the code that the function reaches; a call comes back where a function that it calls can return. Its lines:

    loop A: N visits, by the record at B      the loop whose header is at A has this bound
    no record: the loop at A                  the analyser will refuse the file: no-bound
    no record: the transfer at A              it will refuse the file: unknown-target
    target of A: F                            the indirect call or jump at A may go to F
    access at A: from X to below Y            the load or store at A stays in these bytes
    dead end: the call at A                   no function that it calls can return, so no way goes on after it
    nothing: ..                               the record says nothing of the reached code
    fault: ..                                 the record before this line stands in a wrong place, or two disagree
    size: N contexts, M places                what the analyser makes of the code; it takes 16,384 and 65,536

A fault is no fault of the file: the analyser would print a bound, which may be too low. So this program ends with the
status 1 where there is one.
"""
import sys

sys.dont_write_bytecode = True
from program import LOOP, RANGE, TARGET, Code, Elf, Places, bounds, functions, size  # noqa: E402


class Report:
    """The lines on the records of a file, and how many faults are among them."""

    def __init__(self, elf, entry):
        self.elf, self.code, self.faults, self.lines = elf, Code(elf), 0, []
        self.functions = functions(self.code, entry)
        self.bounds = {}
        for function in self.functions.values():
            for header, found in bounds(elf, self.code, function).items():
                self.bounds.setdefault(header, []).append((function, found))
        self.dead_ends = {at for function in self.functions.values() for at in function.dead_ends}
        self.unrecorded = {
            at for function in self.functions.values() for at in function.next if self.code.is_unrecorded(at)
        }
        shown = [*self.bounds, *self.dead_ends, *self.unrecorded]
        self.places = Places(elf, shown + [at for record in elf.records for at in record[1:3]])
        self.instructions = {
            at for function in self.functions.values() for unit in function.next
            for at in (unit, unit + 4) if at == unit or unit in self.code.words and self.code.is_transfer(unit)
        }

    def tell(self, line):
        self.lines.append(line)

    def fault(self, line):
        self.faults += 1
        self.tell(f"fault: {line}")

    def tell_loops(self):
        """Each loop with its records, by rising header."""
        for header in sorted(self.bounds):
            for function, found in self.bounds[header]:
                at = self.places.text(header)
                if not found:
                    self.tell(f"no record: the loop at {at}")
                for place, bound in enumerate(found):
                    record = self.places.text(bound.address)
                    self.tell(f"loop {at}: {bound.visits} visits, by the record at {record}")
                    if place > 0:
                        first = found[0]
                        self.fault(f"the record at {self.places.text(first.address)} bounds it too, by {first.visits}")
                    if passes_by(function, header, bound.unit):
                        self.fault("the loop can turn without passing this record")

    def tell_calls(self):
        """The calls that don't come back, and the transfers of which nobody told where they go."""
        for address in sorted(self.dead_ends):
            self.tell(f"dead end: the call at {self.places.text(address)}")
        for address in sorted(self.unrecorded):
            self.tell(f"no record: the transfer at {self.places.text(address)}")

    def tell_others(self):
        """The targets and ranges, and the records that say nothing of the reached code."""
        named = {bound.address for loops in self.bounds.values() for _, found in loops for bound in found}
        ranges = {}
        for kind, address, x, y in self.elf.records:
            at = self.places.text(address)
            if kind == LOOP and address not in named:
                self.tell(f"nothing: a bound of {x} at {at}")
            elif kind == TARGET:
                self.tell_one(address, f"target of {at}: {self.places.text(x)}")
                if not self.code.is_indirect(address):
                    self.fault("no indirect jump or call stands there")
            elif kind == RANGE:
                self.tell_one(address, f"access at {at}: from {x:08X} to below {y:08X}")
                if not self.code.is_access(address):
                    self.fault("no load or store stands there")
                if ranges.setdefault(address, (x, y)) != (x, y):
                    self.fault("another record gives this access other bytes")

    def tell_one(self, address, line):
        self.tell(line if address in self.instructions else f"nothing: {line}")

    def tell_size(self, entry):
        sizes = size(self.functions, entry)
        if sizes:
            self.tell("size: {:,} contexts, {:,} places".format(*sizes))


def passes_by(function, header, unit):
    """Whether a loop can turn from its header back to it without passing a unit of its body."""
    body = function.loops[header]
    outside = set(function.next) - body
    turned = function.reached([header], outside | {unit})
    return any(header in function.next[other] for other in turned)


def main(path, name):
    elf = Elf(path)
    entry = elf.address_of(name)
    report = Report(elf, entry)
    report.tell_loops()
    report.tell_calls()
    report.tell_others()
    report.tell_size(entry)
    print("\n".join(report.lines))
    return 1 if report.faults else 0


if __name__ == "__main__":
    if len(sys.argv) != 3:
        raise SystemExit(__doc__)
    sys.exit(main(sys.argv[1], sys.argv[2]))
