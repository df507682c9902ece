"""Programs with calls, recorded targets, symbols and profiles, with their bounds added up by hand, and files that are
refused. A plain unit costs 11 cycles under the plain profile, one with a slot 22, a load or store ten more."""
from executables import ALL_RIGHTS, START, Image, Profile

PLAIN = Profile()
NOP, RETURN = 0, [0x03E00008, 0]
BREAK, LOAD, COUNT, BACK = 0x0000000D, 0x8C890000, 0x2508FFFF, 0x1500FFFE


def at(offset):
    return START + offset


def call(offset):
    """JAL to an offset from the start, with its slot."""
    return [0x0C000000 | at(offset) >> 2, NOP]


def jump(offset):
    return [0x08000000 | at(offset) >> 2, NOP]


def doubling(count, first=(), last=()):
    """Functions of which each calls the next one twice; the last one returns at once. The first and the last one may
    begin with more words."""
    words, start = list(first), 4 * len(first)
    for i in range(count - 1):
        words += call(start + 24 * (i + 1)) * 2 + RETURN
    return Image(words + list(last) + RETURN)


def with_calls(count):
    """Fourteen doubling functions, of which the first one calls the last one some times more: 16,383 contexts and one
    for each of these calls."""
    return doubling(14, call(8 * count + 24 * 13) * count)


def with_units(count):
    """Thirteen doubling functions, with twelve more units in the last one, and some in the first: 4,095 contexts of three
    units, 4,096 of thirteen, and these."""
    return doubling(13, [COUNT] * count, [COUNT] * 12)


def twice_bounded(outer, inner):
    """A loop that calls a function with a loop."""
    loops = call(0x14) + [BACK - 1, NOP] + RETURN[:1] + [COUNT, BACK, NOP] + RETURN
    return Image(loops, [(1, START, outer, 0), (1, at(0x14), inner, 0)])


def words(text):
    return [int(word, 16) for word in text.split()]


# A division with its BREAK, then a call that never returns as the last unit.
DIVISION = Image(words(
    "0085001A 14A00002 00000000 0007000D 10800003 00000000 03E00008 00001012 0C10000A 00000000 0000000D"
))
# A frame, a saved frame pointer, an argument in its caller's area, a call and a table of four words.
FRAME = Image(words(
    "27BDFFE0 AFBF001C AFBE0018 03A0F021 AFC40020 3C040040 0C100010 24840080 8FC40020 00441021 03C0E821 8FBF001C "
    "8FBE0018 03E00008 27BD0020 00000000 00001021 24850010 8C830000 24840004 00431021 1485FFFC 00000000 03E00008"
) + [0] * 8 + [1, 2, 3, 4], [(1, at(0x48), 4, 0)])
# A link through register 8 to two functions, of 22 and of 33 cycles.
LINKED = [0x0100F809, NOP] + RETURN + RETURN + [COUNT] + RETURN
TWO_LINKED = [(2, START, at(0x10), 0), (2, START, at(0x18), 0)]
# Two functions, of which the first one ends with a jump to the second one, so that both have its loop.
SHARED = call(0x18) + call(0x20) + RETURN + jump(0x20) + [COUNT, BACK, NOP] + RETURN
# A jump by register 8 to two ways, of 22 and of 32 cycles.
SWITCH = [0x01000008, NOP] + jump(0x18) + [COUNT, LOAD] + RETURN
# A branch over a call of nothing, with a BREAK in the call's slot.
STOPPED = [0x10800003, NOP] + call(0x100)[:1] + [BREAK] + RETURN
# A store, a load, a product and a division, and the branch, each of another class.
CLASSED = [0xAFA40000, 0x8FA50000, 0x00850018, 0x0085001A, 0x00001012, COUNT, 0x10800001, NOP] + RETURN
PRICES = {
    "alu": 9, "shift": 4, "mult": 12, "div": 35, "move": 2, "load": 6, "store": 7, "branch": 8, "jump": 3, "stop": 1000,
}


def linked_branch(word, callee):
    """A branch that links, 16 bytes before what it calls."""
    return Image([word, NOP] + RETURN + callee)


# The greatest bound of a record, and the greatest one of the inner loop beside it: 22 cycles, and in each outer turn 66
# and 33 for each inner one, are at most 2^63 - 1.
MANY = 2 ** 32 - 1
MOST = ((2 ** 63 - 1 - 22) // MANY - 66) // 33

# Name, file, profile, bound by hand.
WORKED = [
    ("a call that never returns, as the last unit", DIVISION, PLAIN, 77),
    ("a frame, an argument in its caller's area and a table", FRAME, PLAIN, 15 * 11 + 60 + 22 + 4 * 65 + 22),
    ("fourteen functions that each call the next one twice", doubling(14), PLAIN, 2 ** 13 * 22 + (2 ** 13 - 1) * 66),
    ("as many contexts as there may be", with_calls(1), PLAIN, 720830 + 22 + 22),
    ("as many places as there may be", with_units(3), PLAIN, 2 ** 12 * (22 + 12 * 11) + (2 ** 12 - 1) * 66 + 3 * 11),
    ("a bound near the greatest", twice_bounded(MANY, MOST), PLAIN, 22 + MANY * (66 + 33 * MOST)),
    ("a call with a BREAK in its slot, which calls nothing", Image(STOPPED), PLAIN, 22 + 22),
    ("a JALR of two targets", Image(LINKED, TWO_LINKED), PLAIN, 22 + 33 + 22),
    ("a JALR of one target", Image(LINKED, TWO_LINKED[:1]), PLAIN, 22 + 22 + 22),
    ("a JALR of which one target returns", Image(LINKED + [BREAK], TWO_LINKED[:1] + [(2, START, at(0x24), 0)]), PLAIN, 66),
    ("a return with a recorded target", Image(RETURN + [0xFFFFFFFF], [(2, START, at(8), 0)]), PLAIN, 22),
    ("a BGEZAL that may be not taken", linked_branch(0x04910003, [COUNT] + RETURN), PLAIN, 22 + 33 + 22),
    ("a BGEZAL of register 0", linked_branch(0x04110003, [COUNT] + RETURN), PLAIN, 22 + 33 + 22),
    ("a BLTZAL of register 0, which isn't taken", linked_branch(0x04100003, [0xFFFFFFFF]), PLAIN, 22 + 22),
    ("a BLTZAL to a function that never returns", linked_branch(0x04900003, [BREAK]), PLAIN, 22 + 22),
    ("a loop in two functions", Image(SHARED, [(1, at(0x24), 3, 0)]), PLAIN, 3 * 22 + (22 + 121) + 121),
    ("a record at the slot of a unit", Image(SHARED, [(1, at(0x28), 3, 0)]), PLAIN, 3 * 22 + (22 + 121) + 121),
    ("two records on one loop", Image(SHARED, [(1, at(0x24), 3, 0), (1, at(0x20), 2, 0)]), PLAIN, 66 + (22 + 88) + 88),
    ("a JR of two targets", Image(SWITCH, [(2, START, at(8), 0), (2, START, at(0x10), 0)]), PLAIN, 22 + 32 + 22),
    (
        "a cost for each class", Image(CLASSED), Profile(20, 5, PRICES),
        (7 + 25) + (6 + 40) + (12 + 20) + (35 + 20) + (2 + 20) + (9 + 20) + (8 + 20 + 24) + (3 + 20 + 24),
    ),
    ("a memory and stores without latency", Image(CLASSED), Profile(0, 0), 10),
    (
        "an entry by its symbol", Image(DIVISION.words[:-3] + RETURN + [COUNT] + RETURN, [], [("task", at(0x28), 1)]),
        Profile(entry="task"), 33,
    ),
    (
        "the second of two symbols, with a record",
        Image(SHARED, [(1, at(0x24), 3, 0)], [("main", START, 1), ("f", at(0x18), 2)]),
        Profile(memory=100, entry="f"), 2 * 101 + 3 * 303 + 202,
    ),
]

# A function that calls itself, and one with an arc into a cycle.
BOTH = call(0x18) + call(0) + RETURN + [0x10800003, NOP, COUNT, NOP, 0x1500FFFD, NOP] + RETURN
MUTUAL = call(0x10) + RETURN + call(0x20) + RETURN + call(0x10) + RETURN
# An arc into the middle of a cycle, and a loop without a record, in a function that is called.
ENTERED = call(0x10) + RETURN + [0x10800003, NOP, COUNT, NOP, 0x1500FFFD, NOP] + RETURN
ENDLESS = call(0x10) + RETURN + [COUNT, BACK, NOP] + RETURN

# Name, file, profile, what is printed.
REFUSED = [
    ("BREAK alone", Image([BREAK]), PLAIN, "refused never-returns 00400000"),
    ("a call that never returns", Image(call(0x10) + RETURN + [BREAK]), PLAIN, "refused never-returns 00400000"),
    (
        "a symbol's function that never returns", Image(RETURN + [BREAK], [], [("task", at(8), 1)]), Profile(entry="task"),
        "refused never-returns 00400008",
    ),
    ("fifteen functions that each call the next one twice", doubling(15), PLAIN, "refused too-many-units 00400000"),
    ("a function that calls itself", Image(call(0) + RETURN), PLAIN, "refused recursion 00400000"),
    ("a function that calls itself, and an arc into a cycle", Image(BOTH), PLAIN, "refused recursion 00400000"),
    ("two functions that call each other", Image(MUTUAL), PLAIN, "refused recursion 00400010"),
    (
        "a link to register 2", Image([0x00601009, NOP] + RETURN, [(2, START, at(8), 0)]), PLAIN,
        "refused link-register 00400000",
    ),
    ("a link to register 2 without a record", Image([0x00601009, NOP] + RETURN), PLAIN, "refused unknown-target 00400000"),
    ("a JALR without a record", Image(LINKED), PLAIN, "refused unknown-target 00400000"),
    ("a JR without a record", Image(SWITCH, [(2, at(4), at(8), 0)]), PLAIN, "refused unknown-target 00400000"),
    ("an arc into a cycle of a called function", Image(ENTERED), PLAIN, "refused irreducible 00400018"),
    ("a called loop without a record", Image(ENDLESS, [(1, at(8), 5, 0)]), PLAIN, "refused no-bound 00400010"),
    ("two loops of the greatest bound", twice_bounded(MANY, MANY), PLAIN, "refused bound-too-large 00400000"),
    ("a bound just too large", twice_bounded(MANY, MOST + 1), PLAIN, "refused bound-too-large 00400000"),
    ("one context too many", with_calls(2), PLAIN, "refused too-many-units 00400000"),
    ("one place too many", with_units(4), PLAIN, "refused too-many-units 00400000"),
    ("a return with a BREAK in its slot", Image([RETURN[0], BREAK]), PLAIN, "refused never-returns 00400000"),
    ("a JR with a BREAK in its slot", Image([0x01000008, BREAK]), PLAIN, "refused unknown-target 00400000"),
    ("a recursion, and an unknown word that isn't reached", Image(call(0) + [0xFFFFFFFF]), PLAIN, "refused recursion 00400000"),
    ("a call to an unknown word", Image(call(0x10) + RETURN + [0xFFFFFFFF]), PLAIN, "refused unknown-word 00400010"),
    ("a call past the segment", Image(call(0x10) + RETURN), PLAIN, "refused unknown-word 00400010"),
    ("a call with a transfer in its slot", Image(call(0)[:1] + RETURN), PLAIN, "refused transfer-in-slot 00400004"),
    ("code that can be written", Image(call(8) + RETURN, flags=ALL_RIGHTS), PLAIN, "refused writable-code 00400000"),
    ("an entry between words", Image(RETURN, entry=at(2)), PLAIN, "refused unknown-word 00400002"),
    (
        "a symbol that isn't there", Image(RETURN, [], [("main", START, 1)]), Profile(entry="task"),
        "refused no-symbol 00000000",
    ),
    (
        "a symbol without a section", Image(RETURN, [], [("task", START, 0)]), Profile(entry="task"),
        "refused no-symbol 00000000",
    ),
    ("a symbol of a file without symbols", Image(RETURN), Profile(entry="task"), "refused no-symbol 00000000"),
]
