"""Programs drawn at random from a fixed seed: functions with branches, loops, calls and recorded targets."""
from executables import CLASSES, START, Image, Profile

PLAIN_WORDS = (
    0x25080001, 0x00851021, 0x00041080, 0x00850018, 0x0085001A, 0x00001012, 0x3C080040, 0x8FA80000, 0x8C890004,
    0x80890003, 0x88890001, 0xAFA80000, 0xA0890003, 0xA8890001, 0x2C890007, 0x00A44804,
)
NOP, BREAK, RETURN, LINKED_JUMP, JUMP = 0, 0x0000000D, 0x03E00008, 0x0100F809, 0x01000008
# BEQ, BNE, BLEZ, BGTZ, BLTZ, BGEZ of register 4 or 5, or of register 0 or twice the same.
BRANCHES = (
    0x10800000, 0x14850000, 0x18800000, 0x1C800000, 0x04800000, 0x04810000, 0x14850000, 0x10850000,
    0x10000000, 0x14840000, 0x04010000, 0x1C000000,
)
LINKED_BRANCHES = (0x04900000, 0x04910000, 0x04110000, 0x04100000)
# What is put in the place of a word to spoil a file: a link to register 2, a jump to the start, a word of no instruction,
# a branch back, a call of the start, a JR without a record.
SPOILING = (0x00801009, 0x08100000, 0xFFFFFFFF, 0x1480FFFC, 0x0C100000, 0x00800008)


class Dice:
    """Numbers that are the same in each version of Python (a congruential generator)."""

    def __init__(self, seed):
        self.state = seed

    def below(self, limit):
        self.state = (self.state * 6364136223846793005 + 1442695040888963407) % 2 ** 64
        return (self.state >> 33) % limit

    def one_of(self, things):
        return things[self.below(len(things))]


class Writer:
    """Words with labels, which are filled in once all addresses are known."""

    def __init__(self, dice, functions):
        self.dice, self.functions = dice, functions
        self.words, self.fixes, self.records = [], [], []
        self.labels, self.entries = {}, [f"function {i}" for i in range(functions)]

    def label(self, name=None):
        """Puts a label here, a new one where no name is given."""
        name = name or ("here", len(self.words), len(self.labels))
        self.labels[name] = START + 4 * len(self.words)
        return name

    def goto(self, word, label):
        """A branch or jump to a label, with a slot that may do something."""
        self.fixes.append((len(self.words), label))
        self.words.append(word)
        self.words.append(self.dice.one_of((NOP, NOP, NOP, *PLAIN_WORDS)))

    def record(self, kind, at, what):
        """A record; addresses may be labels."""
        self.records.append((kind, at, what, 0))

    def image(self, symbols=()):
        words = list(self.words)
        for at, label in self.fixes:
            target, address = self.labels[label], START + 4 * at
            is_jump = words[at] >> 26 in (2, 3)
            words[at] |= target >> 2 & 0x3FFFFFF if is_jump else (target - address - 4) // 4 & 0xFFFF
        place = self.labels.get
        records = [
            (kind, place(at, at), place(what, what) if kind == 2 else what, rest) for kind, at, what, rest in self.records
        ]
        return Image(words, records, symbols)

    def function(self, number):
        """A function that calls later ones. It returns, or goes over into a later one, or does neither."""
        self.label(self.entries[number])
        self.block(number, 2)
        end = self.dice.below(12)
        if end == 0:
            self.words.append(BREAK)
        elif end == 1 and number + 1 < self.functions:
            self.goto(0x08000000, self.later(number))
        else:
            self.words += [RETURN, self.dice.one_of((NOP, *PLAIN_WORDS))]

    def later(self, number):
        return self.entries[number + 1 + self.dice.below(self.functions - number - 1)]

    def block(self, number, depth):
        """One to three parts in a row."""
        for _ in range(1 + self.dice.below(3)):
            parts = [self.plain, self.plain, self.leave, self.into_slot]
            if depth > 0:
                parts += [self.choice, self.repeat, self.repeat, self.check_first, self.switch]
            if number + 1 < self.functions:
                parts += [self.call, self.call, self.call]
            self.dice.one_of(parts)(number, depth)

    def plain(self, _number, _depth):
        for _ in range(1 + self.dice.below(3)):
            self.words.append(self.dice.one_of(PLAIN_WORDS))

    def leave(self, _number, _depth):
        """A return or a BREAK that is passed over."""
        over = ("over", len(self.words))
        self.goto(self.dice.one_of(BRANCHES[:8]), over)
        self.words += self.dice.one_of(([RETURN, NOP], [BREAK]))
        self.label(over)

    def into_slot(self, _number, _depth):
        """A branch to another one's slot."""
        slot, end = ("slot", len(self.words)), ("end", len(self.words))
        self.goto(self.dice.one_of(BRANCHES[:8]), slot)
        self.labels[slot] = START + 4 * (len(self.words) + 1)
        self.goto(self.dice.one_of(BRANCHES), end)
        self.label(end)

    def choice(self, number, depth):
        """Two alternatives, the second of which may be empty."""
        other, end = ("other", len(self.words)), ("end", len(self.words))
        self.goto(self.dice.one_of(BRANCHES), other)
        self.block(number, depth - 1)
        if self.dice.below(2):
            self.goto(0x08000000, end)
            self.label(other)
            self.block(number, depth - 1)
        else:
            self.label(other)
        self.label(end)

    def bound(self):
        return 1 + self.dice.below(4)

    def repeat(self, number, depth):
        """A loop with its test at the end."""
        head = self.label()
        self.record(1, head, self.bound())
        if self.dice.below(4):
            self.block(number, depth - 1)
        self.goto(self.dice.one_of(BRANCHES[:8]), head)

    def check_first(self, number, depth):
        """A loop with its test at the start, whose turn may begin with a call."""
        head, end = self.label(), ("end", len(self.words))
        self.record(1, head, self.bound())
        if number + 1 < self.functions and self.dice.below(3) == 0:
            self.call(number, depth)
        self.goto(self.dice.one_of(BRANCHES[:8]), end)
        self.block(number, depth - 1)
        self.goto(self.dice.one_of((0x08000000, 0x10000000, 0x04010000)), head)
        self.label(end)

    def switch(self, number, depth):
        """A JR of two or three recorded targets."""
        site, end = self.label(), ("end", len(self.words))
        self.words += [JUMP, NOP]
        for _ in range(2 + self.dice.below(2)):
            self.record(2, site, self.label())
            self.block(number, depth - 1)
            self.goto(0x08000000, end)
        self.label(end)

    def call(self, number, _depth):
        """A call: JAL, a JALR of some recorded targets, or a branch that links."""
        kind = self.dice.below(4)
        if kind < 2:
            self.goto(0x0C000000, self.later(number))
        elif kind == 2:
            site = self.label()
            self.words += [LINKED_JUMP, NOP]
            for _ in range(1 + self.dice.below(3)):
                self.record(2, site, self.later(number))
        else:
            self.goto(self.dice.one_of(LINKED_BRANCHES), self.later(number))


def drawn_profile(dice):
    """A profile in which each cost may differ from its default."""
    if dice.below(2):
        return Profile(entry="task" if dice.below(3) == 0 else None)
    cycles = {name: 1 + dice.below(40) for name in CLASSES if dice.below(2)}
    return Profile(dice.below(30), dice.below(30), cycles, "task" if dice.below(3) == 0 else None)


def spoil(dice, image):
    """Takes a record away, or changes a word, the link of a JALR, or where a branch goes."""
    way, words = dice.below(5), image.words
    links = [at for at, word in enumerate(words) if word == LINKED_JUMP]
    branches = [at for at, word in enumerate(words) if 4 <= word >> 26 <= 7]
    if way == 0 and image.records:
        image.records.pop(dice.below(len(image.records)))
    elif way == 1:
        words[dice.below(len(words))] = dice.one_of(SPOILING)
    elif way == 2 and links:
        words[dice.one_of(links)] ^= 0xF800 ^ 0x1000
    elif branches:
        at = dice.one_of(branches)
        words[at] = words[at] & 0xFFFF0000 | (dice.below(24) - 12) & 0xFFFF


def drawn(number):
    """The file and the profile of a number. Every third file is spoilt."""
    dice = Dice(number)
    dice.below(2)
    writer = Writer(dice, 2 + dice.below(4))
    for i in range(writer.functions):
        writer.function(i)
    task = dice.one_of(writer.entries[:2])
    profile = drawn_profile(dice)
    image = writer.image([("other", START + 4, 1), ("task", writer.labels[task], 1)] if profile.entry else ())
    if number % 3 == 0:
        spoil(dice, image)
    return image, profile
