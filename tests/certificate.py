#!/usr/bin/env python3
"""The certificates that the built program prints, tested with numbers without limit against flow programs made here.

usage: tests/certificate.py [PROGRAM]

Some flow programs were worked out by hand (byhand.py). All others are made here from the words and records of a file,
by contexts, places, arcs and loop instances (graphs.py, nets.py), and never from the analyser's own sources. Of each
file the analyser prints the lines `bound` to `end`, or why it refuses it. The counts must meet every row and have the
value `reached`; the leaf must show the bound; each number on the way must fit 128 signed bits (valid.py). The bound must
be that of the dearest run as well, which is found without rows (longest.py). Each rule is tried on a text that breaks it.

Without PROGRAM this side alone is tried. The last line is 'N passed, N failed'; the status is 0 only where none failed.
"""
import os
import subprocess
import sys
import tempfile

sys.dont_write_bytecode = True
from byhand import BOUNDS, SPOILT, TRIALS, called_loop, counted_loop  # noqa: E402
from drawn import drawn  # noqa: E402
from executables import Image, Profile  # noqa: E402
from graphs import Refused  # noqa: E402
from longest import dearest_run, written  # noqa: E402
from nets import analysed  # noqa: E402
from valid import Broken, Certificate, broken  # noqa: E402
from withcalls import REFUSED, WORKED  # noqa: E402

PLAIN = Profile()
DRAWN = range(1, 151)
# What comes of the drawn files: a bound, or one of these kinds of refusals.
DRAWN_KINDS = {
    "bound", "unknown-word", "transfer-in-slot", "unknown-target", "link-register", "recursion", "irreducible", "no-bound",
    "never-returns",
}


class Tally:
    """Counts trials, and tells those that failed."""

    def __init__(self):
        self.passed = self.failed = 0

    def check(self, name, gave, wanted):
        if gave == wanted:
            self.passed += 1
            return
        self.failed += 1
        print(f"failed: {name}\n  gave:   {gave!r}\n  wanted: {wanted!r}")


class Wanted:
    """What is wanted of a file: its flow program and bound, or the line that refuses it."""

    def __init__(self, image, profile):
        self.flow = self.bound = self.text = self.line = self.run = None
        try:
            net, self.flow = analysed(image, profile)
        except Refused as refused:
            self.line = str(refused)
            return
        self.bound, self.text = written(net, self.flow)
        self.run = dearest_run(net.graph, net.contexts[0][2], profile)


def try_rules(tally):
    """Each rule on a text that breaks it."""
    _, _, loop = counted_loop(5)
    for name, text, rule in SPOILT:
        tally.check(name, broken(loop, text), rule)
    words, records, flow = called_loop()
    text = Wanted(Image(words, records), PLAIN).text
    tally.check("a certificate made here", broken(flow, text), None)
    tally.check("a bound one too small", broken(flow, text.replace("bound 407", "bound 406")), "dual")
    *counts, leaf, _ = text[:-1].split("\n")
    for line in counts[2:]:
        word, column, count = line.split(" ")
        other = text.replace(f"\n{line}\n", f"\n{word} {column} {int(count) + 1}\n")
        tally.check(f"column {column} counted once more", broken(flow, other), "counts")
    for pair in leaf.split(" ")[2:]:
        row, times = pair.split(":")
        other = text.replace(f" {pair}", f" {row}:{int(times) - 1}")
        tally.check(f"the multiplier of row {row} one less", broken(flow, other), "dual")


def try_making(tally):
    """What is made here of a file, against what was worked out by hand, and by two methods."""
    for name, (words, records, flow), bound, _ in TRIALS:
        _, made = analysed(Image(words, records), PLAIN)
        tally.check(f"{name}: rows made here", made.rows, flow.rows)
        tally.check(f"{name}: values and caps made here", (made.values, made.caps), (flow.values, flow.caps))
    worked = WORKED + [(name, Image(words, records), PLAIN, bound) for name, words, records, bound in BOUNDS]
    for name, image, profile, bound in worked:
        wanted = Wanted(image, profile)
        tally.check(f"{name}: bound made here", (wanted.bound, wanted.line), (bound, None))
        tally.check(f"{name}: the dearest run", wanted.run or bound, bound)
    for name, image, profile, line in REFUSED:
        tally.check(f"{name}: refused here", Wanted(image, profile).line, line)
    kinds = set()
    for number in DRAWN:
        wanted = Wanted(*drawn(number))
        kinds.add("bound" if wanted.line is None else wanted.line.split(" ")[1])
        if wanted.line is None:
            tally.check(f"drawn file {number}: two methods", wanted.run, wanted.bound)
            tally.check(f"drawn file {number}: a certificate made here", broken(wanted.flow, wanted.text), None)
    tally.check("kinds of drawn files", kinds, DRAWN_KINDS)


class Analyser:
    """The built program, which is run on files in a folder."""

    def __init__(self, tally, program, folder):
        self.tally, self.program = tally, program
        self.elf, self.config = os.path.join(folder, "file"), os.path.join(folder, "profile")

    def run(self, command, image, profile):
        """The status, the output and the errors of a command. The plain profile is left out."""
        with open(self.elf, "wb") as file:
            file.write(image.file())
        words = [self.program, command, self.elf]
        if profile is not PLAIN:
            with open(self.config, "w") as file:
                file.write(profile.text())
            words.append(self.config)
        run = subprocess.run(words, capture_output=True, text=True, check=False, timeout=600)
        return run.returncode, run.stdout, run.stderr

    def bounded(self, name, command, image, profile, flow, bound, counts=None):
        """A file with a bound: every rule of its certificate, the bound, and the counts where they are given."""
        status, text, errors = self.run(command, image, profile)
        self.tally.check(f"{name}: status of {command}", (status, errors), (0, ""))
        self.tally.check(f"{name}: rules", broken(flow, text), None)
        try:
            printed = Certificate(text)
        except Broken:
            return
        self.tally.check(f"{name}: bound and reached", (printed.bound, printed.reached), (bound, bound))
        self.tally.check(f"{name}: nodes", len(printed.tree), 1)
        if counts is not None:
            self.tally.check(f"{name}: counts", printed.counts, counts)

    def refused(self, name, command, image, profile, line):
        self.tally.check(f"{name}: {command}", self.run(command, image, profile), (2, line + "\n", ""))


def try_program(tally, program, folder):
    """The built program on all files."""
    analyser = Analyser(tally, program, folder)
    for name, (words, records, flow), bound, counts in TRIALS:
        analyser.bounded(name, "analyse", Image(words, records), PLAIN, flow, bound, counts)
    worked = WORKED + [(name, Image(words, records), PLAIN, bound) for name, words, records, bound in BOUNDS]
    for at, (name, image, profile, bound) in enumerate(worked):
        command = "analyse" if at % 2 else "bound"
        analyser.bounded(name, command, image, profile, analysed(image, profile)[1], bound)
    for name, image, profile, line in REFUSED:
        for command in ("analyse", "bound"):
            analyser.refused(name, command, image, profile, line)
    for number in DRAWN:
        image, profile = drawn(number)
        name, wanted, command = f"drawn file {number}", Wanted(image, profile), "bound" if number % 2 else "analyse"
        if wanted.line is None:
            analyser.bounded(name, command, image, profile, wanted.flow, wanted.run or wanted.bound)
        else:
            analyser.refused(name, command, image, profile, wanted.line)


def main(words):
    tally = Tally()
    try_rules(tally)
    try_making(tally)
    if words:
        with tempfile.TemporaryDirectory() as folder:
            try_program(tally, os.path.abspath(words[0]), folder)
    print(f"{tally.passed} passed, {tally.failed} failed")
    return 0 if tally.failed == 0 else 1


if __name__ == "__main__":
    sys.exit(main(sys.argv[1:]))
