"""Executables of one segment, made for the tests: words, records and symbols in an ELF file (System V ABI, MIPS)."""
import struct

START = 0x00400000
READ_EXECUTE, ALL_RIGHTS = 5, 7


class Image:
    """The words of a file from `START` on, its records (kind, address, x, y), its symbols (name, address, section) and
    where it is entered."""

    def __init__(self, words, records=(), symbols=(), entry=START, flags=READ_EXECUTE):
        self.words, self.records, self.symbols = list(words), list(records), list(symbols)
        self.entry, self.flags = entry, flags

    def word(self, address):
        """The executable word at an address, or None where none is there."""
        return self.words[(address - START) // 4] if self.covers(address) and not self.flags & 2 else None

    def covers(self, address):
        """Whether the address is a multiple of 4 and its four bytes lie in the segment."""
        return address % 4 == 0 and START <= address < START + 4 * len(self.words)

    def targets(self, address):
        """The recorded targets of the transfer at an address."""
        return {x for kind, at, x, _ in self.records if kind == 2 and at == address}

    def symbol(self, name):
        """The address of a symbol that the file defines, or None."""
        return next((address for other, address, section in self.symbols if other == name and section != 0), None)

    def file(self):
        """The file's bytes. A file without records and symbols has no sections."""
        code = struct.pack(f">{len(self.words)}I", *self.words)
        parts = [(b".wcet", 1, b"".join(struct.pack(">4I", *record) for record in self.records), 0)]
        if self.symbols:
            strings, entries = b"\0", bytes(16)
            for name, address, section in self.symbols:
                entries += struct.pack(">IIIBBH", len(strings), address, 0, 0x12, 0, section)
                strings += name.encode() + b"\0"
            parts += [(b".symtab", 2, entries, 3), (b".strtab", 3, strings, 0)]
        names = b"\0" + b"".join(name + b"\0" for name, _, _, _ in parts) + b".shstrtab\0"
        parts.append((b".shstrtab", 3, names, 0))
        bare = not self.records and not self.symbols
        at, sections, contents = 84 + len(code), bytes(40), b""
        for name, kind, data, link in parts:
            place = names.index(b"\0" + name + b"\0") + 1
            sections += struct.pack(">10I", place, kind, 0, 0, at, len(data), link, 0, 0, 16 if kind == 2 else 0)
            contents += data
            at += len(data)
        header = b"\x7fELF" + bytes([1, 2, 1]) + bytes(9) + struct.pack(
            ">HHIIIIIHHHHHH", 2, 8, 1, self.entry, 52, 0 if bare else at, 0,
            52, 32, 1, 40, 0 if bare else len(parts) + 1, 0 if bare else len(parts),
        )
        segment = struct.pack(">8I", 1, 84, START, START, len(code), len(code), self.flags, 4)
        return header + segment + code + (b"" if bare else contents + sections)


CLASSES = ("alu", "shift", "mult", "div", "move", "load", "store", "branch", "jump", "stop")


class Profile:
    """What instructions and accesses cost, in cycles, and the symbol of the entry; the defaults are the plain profile."""

    def __init__(self, memory=10, store=10, cycles=None, entry=None):
        self.memory, self.store, self.entry = memory, store, entry
        self.cycles = dict.fromkeys(CLASSES, 1)
        self.cycles.update(cycles or {})
        self.changed = dict(cycles or {})

    def text(self):
        """The profile as the text of a CONFIG file."""
        lines = [f"memory = {self.memory}", f"store = {self.store}"]
        if self.entry is not None:
            lines.append(f'entry = "{self.entry}"')
        if self.changed:
            lines.append("[cycles]")
            lines += [f"{name} = {cycles}" for name, cycles in self.changed.items()]
        return "\n".join(lines) + "\n"
