"""The instructions of MIPS I: which words there are, their cost classes, and where a transfer goes."""

RETURN = 31
LOADS, STORES = range(32, 39), (40, 41, 42, 43, 46)


class Instruction:
    """One word by its fields, with its cost class. `name` is told of transfers and stops alone."""

    def __init__(self, word):
        self.op, self.function = word >> 26, word & 63
        self.rs, self.rt, self.rd, self.sa = (word >> 21 & 31, word >> 16 & 31, word >> 11 & 31, word >> 6 & 31)
        self.offset = (word & 0xFFFF) - (word >> 15 & 1) * 0x10000
        self.index = word & 0x3FFFFFF
        self.kind, self.name = self.classify()

    def classify(self):
        """The cost class and the name, or (None, None) where there is no such instruction."""
        if self.op == 0:
            return self.by_function()
        if self.op == 1:
            name = {0: "bltz", 1: "bgez", 16: "bltzal", 17: "bgezal"}.get(self.rt)
            return ("branch", name) if name else (None, None)
        if self.op in (2, 3):
            return "jump", "j" if self.op == 2 else "jal"
        if self.op in (4, 5):
            return "branch", "beq" if self.op == 4 else "bne"
        if self.op in (6, 7) and self.rt == 0:
            return "branch", "blez" if self.op == 6 else "bgtz"
        if 8 <= self.op <= 14 or self.op == 15 and self.rs == 0:
            return "alu", None
        if self.op in LOADS:
            return "load", None
        return ("store", None) if self.op in STORES else (None, None)

    def by_function(self):
        """The same for the words that are told apart by their last six bits. Fields without a use must be 0."""
        rs, rt, rd, sa = self.rs, self.rt, self.rd, self.sa
        # For each function: its class, its name, and the fields that must be 0.
        rows = [
            ((4, 6, 7), "shift", None, (sa,)),
            ((32, 33, 34, 35, 36, 37, 38, 39, 42, 43), "alu", None, (sa,)),
            ((0, 2, 3), "shift", None, (rs,)),
            ((16, 18), "move", None, (rs, rt, sa)),
            ((17, 19), "move", None, (rt, rd, sa)),
            ((24, 25), "mult", None, (rd, sa)),
            ((26, 27), "div", None, (rd, sa)),
            ((8,), "jump", "jr", (rt, rd, sa)),
            ((9,), "jump", "jalr", (rt, sa)),
            ((12, 13), "stop", "stop", ()),
        ]
        for functions, kind, name, zeros in rows:
            if self.function in functions and not any(zeros):
                return kind, name
        return None, None

    def is_transfer(self):
        return self.kind in ("branch", "jump")

    def is_return(self):
        return self.name == "jr" and self.rs == RETURN

    def taken(self):
        """Whether a branch can be taken, and whether it can be not taken."""
        if self.name in ("beq", "bne"):
            same = self.rs == self.rt
            return (True, not same) if self.name == "beq" else (not same, True)
        if self.rs != 0:
            return True, True
        always = self.name in ("blez", "bgez", "bgezal")
        return always, not always

    def target(self, address):
        """Where a branch at an address goes that is taken, and where J and JAL go."""
        if self.kind == "branch":
            return (address + 4 + 4 * self.offset) % 2 ** 32
        return (address + 4) & 0xF0000000 | self.index * 4
