"""The units that a file's entry reaches, function by function, their loops with bounds, and the faults of the code."""
from instructions import Instruction

KINDS = (
    "no-symbol", "writable-code", "unknown-word", "transfer-in-slot", "unknown-target", "link-register", "recursion",
    "irreducible", "no-bound", "never-returns", "too-many-units", "bound-too-large",
)


class Refused(Exception):
    """A file that is refused, with the kind and the place of the fault."""

    def __init__(self, kind, place):
        super().__init__(f"refused {kind} {place:08X}")
        self.kind = kind


def refuse_first(faults):
    """Refuses by the first kind that there is, and of this kind by the least place."""
    if faults:
        order, place = min((KINDS.index(kind), place) for kind, place in faults)
        raise Refused(KINDS[order], place)


class Unit:
    """A plain instruction, or a transfer with its slot. `ways` are where it goes in its function without a call, `calls`
    the functions that it may call; `faults` are the pairs of a kind and a place."""

    def __init__(self, image, address):
        self.address, self.ways, self.calls, self.faults = address, set(), set(), []
        self.slot, self.returns = None, False
        self.instruction = self.read(image, address)
        if self.instruction is None:
            return
        if self.instruction.is_transfer():
            self.slot = self.read(image, address + 4)
            if self.slot is not None and self.slot.is_transfer():
                self.faults.append(("transfer-in-slot", address + 4))
            self.look_at_registers(image)
        if not self.faults and "stop" not in [instruction.kind for instruction in self.instructions()]:
            self.follow(image)

    def read(self, image, address):
        """The instruction at an address, or None with a fault."""
        word = image.word(address)
        instruction = None if word is None else Instruction(word)
        if instruction is not None and instruction.kind is not None:
            return instruction
        writable = image.covers(address) and word is None
        self.faults.append(("writable-code" if writable else "unknown-word", address))
        return None

    def look_at_registers(self, image):
        """The faults of JR and JALR: no recorded target, or another link than register 31."""
        jump = self.instruction
        if jump.name in ("jr", "jalr") and not jump.is_return() and not image.targets(self.address):
            self.faults.append(("unknown-target", self.address))
        if jump.name == "jalr" and jump.rd != 31:
            self.faults.append(("link-register", self.address))

    def follow(self, image):
        """Fills in where the unit goes, what it calls and whether it returns."""
        name, address = self.instruction.name, self.address
        if not self.instruction.is_transfer():
            self.ways = {address + 4}
        elif self.instruction.kind == "branch":
            taken, passed = self.instruction.taken()
            (self.calls if name.endswith("al") else self.ways).update(
                {self.instruction.target(address)} if taken else ()
            )
            self.ways.update({address + 8} if passed else ())
        elif name == "j":
            self.ways = {self.instruction.target(address)}
        elif name == "jal":
            self.calls = {self.instruction.target(address)}
        elif name == "jalr":
            self.calls = image.targets(address)
        elif self.instruction.is_return():
            self.returns = True
        else:
            self.ways = image.targets(address)

    def instructions(self):
        return [instruction for instruction in (self.instruction, self.slot) if instruction is not None]

    def onward(self, returning):
        """Where the unit goes in its function, where the functions of `returning` return."""
        return self.ways | ({self.address + 8} if self.calls & returning else set())

    def cost(self, profile):
        """The unit's cycles without caches: its classes, its fetches, its loads and its stores."""
        total = 0
        for instruction in self.instructions():
            total += profile.cycles[instruction.kind] + profile.memory
            total += {"load": profile.memory, "store": profile.store}.get(instruction.kind, 0)
        return total


def spread(starts, onward):
    """All that is reached from the starts."""
    found, waiting = set(starts), list(starts)
    while waiting:
        for other in onward(waiting.pop()):
            if other not in found:
                found.add(other)
                waiting.append(other)
    return found


class Loop:
    """A header, the units of the body, and the bound by the records, or None."""

    def __init__(self, header, body):
        self.header, self.body, self.bound = header, body, None


class Function:
    """The units of a function with their arcs, and its loops."""

    def __init__(self, entry, units, arcs):
        self.entry, self.units, self.arcs = entry, units, arcs
        self.loops = []

    def find_loops(self, image):
        """Finds the loops with their bounds, and gives the faults."""
        heads = {}
        for header in self.units:
            without = spread({self.entry} - {header}, lambda unit: self.arcs[unit] - {header})
            sources = {unit for unit in self.units if header in self.arcs[unit] and unit not in without}
            if sources:
                heads[header] = sources
        came = {unit: {other for other in self.units if unit in self.arcs[other]} for unit in self.units}
        for header, sources in sorted(heads.items()):
            body = spread(sources - {header}, lambda unit: came[unit] - {header}) | {header}
            self.loops.append(Loop(header, body))
        forward = {
            unit: {other for other in self.arcs[unit] if unit not in heads.get(other, ())} for unit in self.units
        }
        faults = [("irreducible", unit) for unit in self.units if unit in spread(forward[unit], forward.get)]
        if not faults:
            self.bound_loops(image)
            faults = [("no-bound", loop.header) for loop in self.loops if loop.bound is None]
        return faults

    def bound_loops(self, image):
        """Gives each loop the least bound of the records that name it."""
        for kind, address, bound, _ in image.records:
            for unit in self.units.values():
                starts = unit.address == address or unit.slot is not None and unit.address + 4 == address
                holding = [loop for loop in self.loops if unit.address in loop.body]
                if kind == 1 and starts and holding:
                    inner = min(holding, key=lambda loop: len(loop.body))
                    inner.bound = bound if inner.bound is None else min(bound, inner.bound)


def functions(image, entry):
    """All reached functions by their entries, with loops. Refuses code with a fault."""
    units, returning, entries, found = {}, set(), {entry}, None
    while found is None or found != (len(returning), len(entries)):
        found = (len(returning), len(entries))
        reached = {}
        for start in entries:
            def onward(address):
                if address not in units:
                    units[address] = Unit(image, address)
                return units[address].onward(returning)
            reached[start] = spread({start}, onward)
        returning = {start for start in entries if any(units[unit].returns for unit in reached[start])}
        entries = entries | {other for start in entries for unit in reached[start] for other in units[unit].calls}
    refuse_first([fault for start in entries for unit in reached[start] for fault in units[unit].faults])
    calls = {start: {other for unit in reached[start] for other in units[unit].calls} for start in entries}
    refuse_first([("recursion", start) for start in entries if start in spread(calls[start], calls.get)])
    graph = {}
    for start in entries:
        held = {address: units[address] for address in sorted(reached[start])}
        graph[start] = Function(start, held, {address: held[address].onward(returning) for address in held})
    refuse_first([fault for function in graph.values() for fault in function.find_loops(image)])
    return graph
