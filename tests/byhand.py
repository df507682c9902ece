"""Programs whose rows, values and caps, or whose bounds, were worked out by hand, and texts that break a rule each."""
from executables import START
from valid import EQUAL, MOST, Program


def counted_loop(bound):
    """A start, a loop of two units, and the return. A plain unit costs 11 cycles, one with a slot 22."""
    words = [0x24080005, 0x2508FFFF, 0x1500FFFE, 0, 0x03E00008, 0]
    records = [(1, 0x00400004, bound, 0)]
    # Arcs: 0-1, 1-2, 2-3, 3-2, 3-4, 4-0. The loop's header is place 2.
    rows = [
        (EQUAL, {1: 1}, 1),
        (EQUAL, {1: 1, 2: -1}, 0),
        (EQUAL, {2: 1, 3: -1, 4: 1}, 0),
        (EQUAL, {3: 1, 4: -1, 5: -1}, 0),
        (EQUAL, {5: 1, 6: -1}, 0),
        (MOST, {2: 1 - bound, 4: 1} if bound > 1 else {4: 1}, 0),
    ]
    values = [11, 11, 22, 11, 22, 0]
    caps = [1, 1, bound, bound, bound, 1]
    return words, records, Program(rows, values, caps)


def nest():
    """Three loops, the outer one at most twice, the middle one three times and the inner one four times."""
    words = [0, 0, 0, 0x1480FFFE, 0, 0x1480FFFB, 0, 0x1480FFF8, 0, 0x03E00008, 0]
    records = [(1, 0x00400000, 2, 0), (1, 0x00400004, 3, 0), (1, 0x00400008, 4, 0)]
    # Arcs: 0-1, 1-2, 2-3, 3-4, 4-3, 4-5, 5-2, 5-6, 6-1, 6-7, 7-0. The headers are places 1, 2 and 3.
    rows = [
        (EQUAL, {1: 1}, 1),
        (EQUAL, {1: 1, 2: -1, 9: 1}, 0),
        (EQUAL, {2: 1, 3: -1, 7: 1}, 0),
        (EQUAL, {3: 1, 4: -1, 5: 1}, 0),
        (EQUAL, {4: 1, 5: -1, 6: -1}, 0),
        (EQUAL, {6: 1, 7: -1, 8: -1}, 0),
        (EQUAL, {8: 1, 9: -1, 10: -1}, 0),
        (EQUAL, {10: 1, 11: -1}, 0),
        (MOST, {1: -1, 9: 1}, 0),
        (MOST, {2: -2, 7: 1}, 0),
        (MOST, {3: -3, 5: 1}, 0),
    ]
    values = [11, 11, 11, 22, 11, 22, 11, 22, 11, 22, 0]
    caps = [1, 2, 6, 24, 24, 24, 6, 6, 2, 2, 1]
    return words, records, Program(rows, values, caps)


def called_loop():
    """A loop of bound 2 that calls a function whose entry is the header of a loop of bound 3."""
    words = [
        0x03E08821, 0x24100002, 0x0C10000A, 0, 0x2610FFFF, 0x1600FFFC, 0, 0x0220F821, 0x03E00008, 0,
        0x2508FFFF, 0x1500FFFE, 0, 0x03E00008, 0,
    ]
    records = [(1, 0x00400008, 2, 0), (1, 0x00400028, 3, 0)]
    # Arcs: 0-1, 1-2, 2-3, 3-8 (the call), 4-5, 5-3, 5-6, 6-7, 7-0, 8-9, 9-8, 9-10, 10-4 (the return).
    # The first loop holds places 3 to 5 and, by the call, 8 to 10; its header is place 3. The second holds 8 and 9.
    rows = [
        (EQUAL, {1: 1}, 1),
        (EQUAL, {1: 1, 2: -1}, 0),
        (EQUAL, {2: 1, 3: -1}, 0),
        (EQUAL, {3: 1, 4: -1, 6: 1}, 0),
        (EQUAL, {5: -1, 13: 1}, 0),
        (EQUAL, {5: 1, 6: -1, 7: -1}, 0),
        (EQUAL, {7: 1, 8: -1}, 0),
        (EQUAL, {8: 1, 9: -1}, 0),
        (EQUAL, {4: 1, 10: -1, 11: 1}, 0),
        (EQUAL, {10: 1, 11: -1, 12: -1}, 0),
        (EQUAL, {12: 1, 13: -1}, 0),
        (MOST, {3: -1, 6: 1}, 0),
        (MOST, {4: -2, 11: 1}, 0),
    ]
    values = [11, 11, 22, 11, 22, 22, 11, 22, 0, 22, 11, 22, 11]
    caps = [1, 1, 1, 2, 2, 2, 2, 1, 1, 6, 6, 6, 2]
    return words, records, Program(rows, values, caps)


def straight():
    """A function that returns at once."""
    rows = [(EQUAL, {1: 1}, 1), (EQUAL, {1: 1, 2: -1}, 0)]
    return [0x03E00008, 0], [], Program(rows, [22, 0], [1, 1])


# Name, program, bound by hand, and counts by hand where they are the only ones of the greatest value.
TRIALS = [
    ("a function that returns at once", straight(), 22, {1: 1, 2: 1}),
    ("a counted loop of bound 5", counted_loop(5), 198, {1: 1, 2: 1, 3: 5, 4: 4, 5: 1, 6: 1}),
    ("a counted loop of bound 1", counted_loop(1), 66, {1: 1, 2: 1, 3: 1, 5: 1, 6: 1}),
    ("a counted loop of bound 4", counted_loop(4), 165, {1: 1, 2: 1, 3: 4, 4: 3, 5: 1, 6: 1}),
    (
        "a nest of three loops", nest(), 1078,
        {1: 1, 2: 2, 3: 6, 4: 24, 5: 18, 6: 6, 7: 4, 8: 2, 9: 1, 10: 1, 11: 1},
    ),
    (
        "a loop that is called in a loop", called_loop(), 22 + 2 * 176 + 33,
        {1: 1, 2: 1, 3: 1, 4: 2, 5: 2, 6: 1, 7: 1, 8: 1, 9: 1, 10: 6, 11: 4, 12: 2, 13: 2},
    ),
]

def nested(depth):
    """Loops inside one another, each at most three times: their headers, then a branch back to each."""
    words = [0] * depth
    for level in reversed(range(depth)):
        words += [0x14800000 | (level - len(words) - 1) & 0xFFFF, 0]
    records = [(1, START + 4 * level, 3, 0) for level in range(depth)]
    return words + [0x03E00008, 0], records


# A loop that is left from its middle: the header, a branch out, and a branch back.
LEFT = [0x2508FFFF, 0x11000003, 0, 0x1000FFFC, 0, 0x03E00008, 0]
# A loop whose body may go to a BREAK, which goes nowhere.
DEAD_END = [0x2508FFFF, 0x11200005, 0, 0x1500FFFC, 0, 0x03E00008, 0, 0x0000000D]

# Name, words, records, bound by hand. A nest costs three times 33 cycles and what is inside it, and 22 for the return.
BOUNDS = [
    ("a nest of depth 1", *nested(1), 121),
    ("a nest of depth 2", *nested(2), 418),
    ("a nest of depth 3", *nested(3), 1309),
    ("a nest of depth 4", *nested(4), 3982),
    ("a nest of depth 5", *nested(5), 12001),
    ("a loop left from its middle", LEFT, [(1, START, 4, 0)], 4 * 33 + 3 * 22 + 22),
    ("a loop with a dead end", DEAD_END, [(1, START, 3, 0)], 3 * 55 + 22),
]

# Texts of the counted loop of bound 5 that break a rule each; the last ones break none. Row 1 is the entry's, rows 2 to 5
# are those of the places, row 6 is the loop's.
COUNTS = "value 1 1\nvalue 2 1\nvalue 3 5\nvalue 4 4\nvalue 5 1\nvalue 6 1\n"
HEAD = "bound 198\nreached 198\n" + COUNTS
LEAF = "leaf 1 1:198 2:-187 3:-44 4:-22 6:33\nend\n"
SPOILT = [
    ("a bound one too small", "bound 197\nreached 198\n" + COUNTS + LEAF, "dual"),
    ("a multiplier one too small", HEAD + LEAF.replace("1:198", "1:197"), "dual"),
    ("a loop's multiplier left out", HEAD + LEAF.replace(" 6:33", ""), "dual"),
    ("a loop's multiplier below 0", HEAD + LEAF.replace("6:33", "6:-33"), "tree"),
    ("a row that isn't there", HEAD + LEAF.replace("6:33", "6:33 7:1"), "tree"),
    ("row 0", HEAD + LEAF.replace("leaf 1 ", "leaf 1 0:1 "), "tree"),
    ("a denominator of 0", HEAD + LEAF.replace("leaf 1", "leaf 0"), "tree"),
    ("a denominator below 0", HEAD + LEAF.replace("leaf 1", "leaf -1"), "tree"),
    ("a product that is too wide", HEAD + LEAF.replace("6:33", f"6:{2 ** 126}"), "wide"),
    ("an emptiness that isn't there", HEAD + "empty 1:198\nend\n", "dual"),
    ("a split at a column's cap", HEAD + "split 3 5\n" + LEAF[:-4] + LEAF, "tree"),
    ("a split of a column that isn't there", HEAD + "split 7 0\n" + LEAF[:-4] + LEAF, "tree"),
    ("a split that is split again at its end", HEAD + "split 3 2\nsplit 3 2\n" + LEAF[:-4] * 2 + LEAF, "tree"),
    ("a split without its second part", HEAD + "split 3 2\n" + LEAF, "text"),
    ("a value one too great", HEAD.replace("reached 198", "reached 199") + LEAF, "counts"),
    ("a turn left out", HEAD.replace("value 4 4", "value 4 3") + LEAF, "counts"),
    ("a turn too many", HEAD.replace("value 3 5", "value 3 6").replace("value 4 4", "value 4 5") + LEAF, "counts"),
    ("a count of no column", HEAD + "value 7 1\n" + LEAF, "counts"),
    ("a count of 0", HEAD + "value 7 0\n" + LEAF, "text"),
    ("columns that don't rise", HEAD.replace("value 2 1\nvalue 3 5", "value 3 5\nvalue 2 1") + LEAF, "text"),
    ("rows that don't rise", HEAD + LEAF.replace("4:-22 6:33", "6:33 4:-22"), "text"),
    ("a multiplier of 0", HEAD + LEAF.replace("4:-22", "4:0"), "text"),
    ("a number with a leading zero", HEAD.replace("bound 198", "bound 0198") + LEAF, "text"),
    ("a last line without its newline", HEAD + LEAF[:-1], "text"),
    ("no end", HEAD + LEAF[:-4], "text"),
    ("a line behind the end", HEAD + LEAF + "end\n", "text"),
    ("nothing spoilt", HEAD + LEAF, None),
    ("a denominator of 2", HEAD + "leaf 2 1:396 2:-374 3:-88 4:-44 6:66\nend\n", None),
    ("a split in two parts", HEAD + "split 3 2\n" + LEAF[:-4] + LEAF, None),
    ("counts below the bound", "bound 198\nreached 66\nvalue 1 1\nvalue 2 1\nvalue 3 1\nvalue 5 1\nvalue 6 1\n" + LEAF, None),
]
