"""Certificates as they are printed, and the rules that a valid one keeps for a flow program, with numbers without limit."""
import re

EQUAL, MOST = "=", "<="


class Program:
    """A flow program: rows of (relation, {column: factor}, right side), a value and a cap for each column."""

    def __init__(self, rows, values, caps):
        self.rows, self.values, self.caps = rows, values, caps
        self.columns = len(values)


NATURAL = r"(0|[1-9][0-9]*)"
WHOLE = r"(0|-?[1-9][0-9]*)"


class Broken(Exception):
    """A rule that a certificate breaks: text, counts, tree, wide or dual."""


def need(holds, rule):
    if not holds:
        raise Broken(rule)


def fits(number):
    need(-(2 ** 127) <= number < 2 ** 127, "wide")
    return number


class Certificate:
    """What the lines from `bound` to `end` say. A split is ('split', column, at), a leaf ('leaf', d, rows), and one
    that shows that there are no counts ('empty', 1, rows)."""

    def __init__(self, text):
        need(text.endswith("\n"), "text")
        lines = text[:-1].split("\n")
        need(len(lines) >= 4, "text")
        self.bound = self.number(lines[0], "bound")
        self.reached = self.number(lines[1], "reached")
        self.counts, self.tree = {}, []
        last, at = -1, 2
        while at < len(lines) and lines[at].startswith("value "):
            found = re.fullmatch(f"value {NATURAL} {NATURAL}", lines[at])
            need(found, "text")
            column, count = int(found[1]), int(found[2])
            need(0 < count < 2 ** 64 and column < 2 ** 32, "text")
            need(column > last, "text")
            self.counts[column] = count
            last, at = column, at + 1
        left = 1
        while left > 0 and at < len(lines):
            node = self.node(lines[at])
            self.tree.append(node)
            left += 1 if node[0] == "split" else -1
            at += 1
        need(left == 0 and lines[at:] == ["end"], "text")

    @staticmethod
    def number(line, word):
        found = re.fullmatch(f"{word} {NATURAL}", line)
        need(found and int(found[1]) < 2 ** 64, "text")
        return int(found[1])

    @staticmethod
    def node(line):
        found = re.fullmatch(f"split {NATURAL} {NATURAL}", line)
        if found:
            need(int(found[1]) < 2 ** 32 and int(found[2]) < 2 ** 64, "text")
            return ("split", int(found[1]), int(found[2]))
        words = line.split(" ")
        need(words[0] in ("leaf", "empty"), "text")
        denom, pairs = 1, words[1:]
        if words[0] == "leaf":
            need(len(words) > 1 and re.fullmatch(WHOLE, words[1]), "text")
            denom, pairs = int(words[1]), words[2:]
        rows = []
        for pair in pairs:
            found = re.fullmatch(f"{NATURAL}:{WHOLE}", pair)
            need(found, "text")
            row, times = int(found[1]), int(found[2])
            need(row < 2 ** 64 and times != 0 and -(2 ** 127) <= times < 2 ** 127, "text")
            need(not rows or row > rows[-1][0], "text")
            rows.append((row, times))
        need(-(2 ** 127) <= denom < 2 ** 127, "text")
        return (words[0], denom, rows)


def check_counts(program, certificate):
    """The counts meet each row and have the value `reached`."""
    counts = certificate.counts
    need(all(1 <= column <= program.columns for column in counts), "counts")
    for relation, terms, right in program.rows:
        found = sum(factor * counts.get(column, 0) for column, factor in terms.items())
        need(found == right if relation == EQUAL else found <= right, "counts")
    value = sum(program.values[column - 1] * count for column, count in counts.items())
    need(value == certificate.reached, "counts")


def check_leaf(program, cuts, bound, kind, denom, weights):
    """The multipliers show the bound, or that there are no counts."""
    rows = program.rows + [
        (MOST, {column: 1}, at) if upper else (MOST, {column: -1}, -(at + 1)) for column, at, upper in cuts
    ]
    need(denom >= 1, "tree")
    for row, times in weights:
        need(1 <= row <= len(rows), "tree")
        need(times > 0 or rows[row - 1][0] == EQUAL, "tree")
    sums, right = [0] * (program.columns + 1), 0
    for row, times in weights:
        _, terms, side = rows[row - 1]
        for column in sorted(terms):
            sums[column] = fits(sums[column] + fits(times * terms[column]))
        right = fits(right + fits(times * side))
    if kind == "empty":
        need(all(number >= 0 for number in sums[1:]) and right < 0, "dual")
        return
    values = [fits(denom * value) for value in program.values]
    limit = fits(denom * (bound + 1))
    need(all(number >= value for number, value in zip(sums[1:], values)), "dual")
    need(right < limit, "dual")


def check_tree(program, certificate):
    """Each split parts a range; each leaf shows the bound under the cuts above it."""
    stack = [[]]
    for kind, first, second in certificate.tree:
        cuts = stack.pop()
        if kind != "split":
            check_leaf(program, cuts, certificate.bound, kind, first, second)
            continue
        need(1 <= first <= program.columns, "tree")
        low, high = 0, program.caps[first - 1]
        for column, at, upper in cuts:
            if column == first:
                low, high = (low, min(high, at)) if upper else (max(low, at + 1), high)
        need(low <= second < high, "tree")
        stack += [cuts + [(first, second, False)], cuts + [(first, second, True)]]


def broken(program, text):
    """The first rule that the text breaks, or none."""
    try:
        certificate = Certificate(text)
        check_counts(program, certificate)
        check_tree(program, certificate)
    except Broken as fault:
        return str(fault)
    return None
