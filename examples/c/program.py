"""A built program by its code: the words, records and symbols of its file, its functions and their loops.

It reads what the analyser reads, and has nothing of it. A call comes back where a function that it calls can return.
"""
import functools
import shutil
import struct
import subprocess

LOADS, STORES = (32, 33, 34, 35, 36, 37, 38), (40, 41, 42, 43, 46)
LOOP, TARGET, RANGE = 1, 2, 3
FUNCTION_SYMBOL = 2


class Elf:
    """The executable words, the records and the symbols of a file."""

    def __init__(self, path):
        self.path = path
        with open(path, "rb") as file:
            self.data = file.read()
        if self.data[:7] != b"\x7fELF\1\2\1" or self.number(0x12, 2) != 8:
            raise SystemExit(f"{path}: no big-endian executable for MIPS")
        self.entry = self.number(0x18, 4)
        self.words, self.records, self.symbols, self.functions = {}, [], {}, {}
        for i in range(self.number(0x2C, 2)):
            self.segment(*struct.unpack_from(">8I", self.data, self.number(0x1C, 4) + 32 * i))
        sections = [
            struct.unpack_from(">10I", self.data, self.number(0x20, 4) + 40 * i) for i in range(self.number(0x30, 2))
        ]
        for section in sections:
            if self.text(sections[self.number(0x32, 2)], section[0]) == ".wcet":
                self.records += struct.iter_unpack(">4I", self.bytes(section))
            if section[1] == 2:
                self.read_symbols(section, sections[section[6]])

    def number(self, at, size):
        return int.from_bytes(self.data[at:at + size], "big")

    def bytes(self, section):
        return self.data[section[4]:section[4] + section[5]]

    def text(self, names, at):
        return self.bytes(names)[at:].split(b"\0")[0].decode(errors="replace")

    def segment(self, kind, offset, address, _, size, __, flags, ___):
        if kind == 1 and flags & 1:
            for at in range(0, size - 3, 4):
                self.words[address + at] = self.number(offset + at, 4)

    def read_symbols(self, section, names):
        for name, value, _, info, _, index in struct.iter_unpack(">3I2BH", self.bytes(section)):
            if index and name:
                self.symbols.setdefault(self.text(names, name), value)
                if info & 15 == FUNCTION_SYMBOL:
                    self.functions.setdefault(value, self.text(names, name))

    def address_of(self, name):
        """The address of a function, by its name."""
        if name not in self.symbols:
            raise SystemExit(f"{self.path}: no function {name}")
        return self.symbols[name]

    def name_at(self, address):
        """An address by the last function before it, as sort+0x20."""
        first = max((value for value in self.functions if value <= address), default=None)
        return "?" if first is None else f"{self.functions[first]}+0x{address - first:x}"


class Places:
    """Addresses as they are printed, as 004000C0 (sort+0x20, sort.c:16). The lines of the source are those that
    addr2line finds, where there is one and the program was compiled with -g."""

    def __init__(self, elf, addresses):
        self.elf, self.lines = elf, {}
        tool = shutil.which("mips-linux-gnu-addr2line")
        wanted = sorted(set(addresses))
        if tool and wanted:
            asked = "".join(f"0x{address:x}\n" for address in wanted)
            told = subprocess.run([tool, "-s", "-e", elf.path], input=asked, capture_output=True, text=True).stdout
            self.lines = dict(zip(wanted, (line.split(" ")[0] for line in told.splitlines())))

    def text(self, address):
        line = self.lines.get(address, "?")
        return f"{address:08X} ({self.elf.name_at(address)}" + ("" if "?" in line else f", {line}") + ")"


class Code:
    """What each unit does: a plain instruction, or a jump or branch with its slot."""

    def __init__(self, elf):
        self.words, self.targets = elf.words, {}
        for kind, address, x, _ in elf.records:
            if kind == TARGET:
                self.targets.setdefault(address, set()).add(x)

    def operation(self, address):
        """The operation's number, and that of a special one."""
        word = self.words[address]
        return word >> 26, word & 63 if word >> 26 == 0 else None

    def is_access(self, address):
        return address in self.words and self.words[address] >> 26 in LOADS + STORES

    def is_indirect(self, address):
        """JR and JALR, returns among them."""
        return address in self.words and self.operation(address) in ((0, 8), (0, 9))

    def is_transfer(self, address):
        return self.operation(address)[0] in range(1, 8) or self.is_indirect(address)

    def is_unrecorded(self, address):
        """Whether an indirect call or jump has no record of where it goes."""
        return self.is_indirect(address) and not self.is_jump_to_link(address) and not self.targets.get(address)

    def is_stop(self, address):
        return self.operation(address) in ((0, 12), (0, 13))

    def is_jump_to_link(self, address):
        return self.words[address] == 0x03E00008

    def links(self, address):
        """Whether a transfer is a call: JAL, JALR, BLTZAL or BGEZAL."""
        operation, special = self.operation(address)
        return operation == 3 or special == 9 or operation == 1 and self.words[address] >> 16 & 16 != 0

    def returns(self, address):
        """Whether a unit returns to the caller."""
        return self.is_jump_to_link(address) and address + 4 in self.words and not self.is_stop(address + 4)

    def branch(self, address):
        """Whether a branch may be taken, and whether it may not: not both, if it compares a register with itself."""
        word, first, second = self.words[address], self.words[address] >> 21 & 31, self.words[address] >> 16 & 31
        same = {1: first == 0, 4: first == second, 5: first == second, 6: first == 0, 7: first == 0}[word >> 26]
        takes = {1: second & 1 == 1, 4: True, 5: False, 6: True, 7: False}[word >> 26]
        return not same or takes, not same or not takes

    def target(self, address):
        """Where a branch, J or JAL goes."""
        word = self.words[address]
        if word >> 26 in (2, 3):
            return (address + 4) & 0xF0000000 | (word & 0x3FFFFFF) << 2
        return address + 4 + 4 * ((word & 0xFFFF ^ 0x8000) - 0x8000)

    def ways(self, address):
        """Where a unit goes on to without a call, and which functions it calls. An indirect call without a record, which
        the analyser refuses, is taken to come back."""
        if self.is_stop(address):
            return [], []
        if not self.is_transfer(address):
            return [address + 4], []
        if address + 4 not in self.words or self.is_stop(address + 4) or self.is_jump_to_link(address):
            return [], []
        taken, passed, behind = True, False, [address + 8]
        if self.is_indirect(address):
            targets = sorted(self.targets.get(address, ()))
            passed = self.links(address) and not targets
        else:
            targets = [self.target(address)]
            if self.operation(address)[0] not in (2, 3):
                taken, passed = self.branch(address)
        gone = targets if taken else []
        onward = behind if passed else []
        return (onward, gone) if self.links(address) else (gone + onward, [])


class Function:
    """The units that a function reaches, with where each goes on to, and its loops: for each header its body. `calls`
    are the functions that it calls, once for each call, and `dead_ends` the calls that never come back."""

    def __init__(self, code, entry, returning):
        self.entry, self.next, self.calls, self.dead_ends = entry, {}, [], []
        work = [entry]
        while work:
            address = work.pop()
            if address in self.next:
                continue
            ways, called = code.ways(address) if address in code.words else ([], [])
            if called and returning.isdisjoint(called):
                self.dead_ends.append(address)
            elif called and address + 8 not in ways:
                ways = ways + [address + 8]
            self.next[address] = ways
            self.calls += called
            work += ways
        self.returns = any(code.returns(unit) for unit in self.next if unit in code.words)

    @functools.cached_property
    def before(self):
        """For each unit those that go on to it."""
        before = {unit: [] for unit in self.next}
        for unit, ways in self.next.items():
            for way in ways:
                before[way].append(unit)
        return before

    @functools.cached_property
    def loops(self):
        return {header: body for header in self.heads() if (body := self.body(header))}

    def heads(self):
        """The units to which some way goes back, in the order of a search in depth: all headers are among them."""
        rank, seen, stack = {}, set(), [(self.entry, False)]
        while stack:
            unit, left = stack.pop()
            if left:
                rank[unit] = len(rank)
            elif unit not in seen:
                seen.add(unit)
                stack += [(unit, True)] + [(way, False) for way in self.next[unit]]
        return sorted({way for unit, ways in self.next.items() for way in ways if rank[way] >= rank[unit]})

    def reached(self, starts, without):
        """What is reached from the starts without passing some units."""
        seen, work = set(), list(starts)
        while work:
            unit = work.pop()
            if unit not in seen and unit not in without:
                seen.add(unit)
                work += self.next[unit]
        return seen

    def body(self, header):
        """The units of a header's loop: those that reach one of its back arcs without passing the header."""
        others = self.reached([self.entry], {header})
        work = [unit for unit in self.before[header] if unit not in others]
        body = {header} if work else set()
        while work:
            unit = work.pop()
            if unit not in body:
                body.add(unit)
                work += self.before[unit]
        return body

    def innermost(self, unit):
        """The header of the least loop that holds the unit, or none."""
        holding = [(len(body), header) for header, body in self.loops.items() if unit in body]
        return min(holding)[1] if holding else None


def functions(code, entry):
    """All functions that the entry calls, directly or through others. If one turns out to return, those that call it are
    looked at again."""
    found, returning, callers, stale = {}, set(), {}, {entry}
    while stale:
        address = stale.pop()
        function = found[address] = Function(code, address, returning)
        for other in function.calls:
            callers.setdefault(other, set()).add(address)
        stale.update(set(function.calls) - found.keys())
        if function.returns and address not in returning:
            returning.add(address)
            stale |= callers.get(address, set())
    return found


def size(found, entry):
    """How many contexts and places the analyser makes of a function, or none where a function calls itself."""
    sizes, work = {}, [(entry, False)]
    while work:
        address, left = work.pop()
        called = found[address].calls
        if left:
            if any(not sizes.get(other) for other in called):
                return None
            contexts = 1 + sum(sizes[other][0] for other in called)
            sizes[address] = contexts, len(found[address].next) + sum(sizes[other][1] for other in called)
        elif address not in sizes:
            sizes[address] = None
            work += [(address, True)] + [(other, False) for other in called]
    return sizes[entry]


class Bound:
    """A record of a loop: how many visits it allows its header, and the unit at which it stands."""

    def __init__(self, visits, address, unit):
        self.visits, self.address, self.unit = visits, address, unit


def bounds(elf, code, function):
    """For each loop of a function the records that name it, by its header."""
    found = {header: [] for header in function.loops}
    for kind, address, visits, _ in elf.records:
        if kind != LOOP:
            continue
        for unit in (address, address - 4):
            starts = unit == address or unit in code.words and code.is_transfer(unit)
            header = function.innermost(unit) if starts and unit in function.next else None
            if header is not None:
                found[header].append(Bound(visits, address, unit))
    return found
