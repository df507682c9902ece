"""Reads what QEMU traces of a run, an instruction at a time:

    qemu-mips -singlestep -d exec,nochain,cpu -D TRACE ELF

Newer versions name the option -one-insn-per-tb. Without `cpu` the trace is far shorter, but has no registers.
"""
import itertools
import os
import re
import stat

SINGLE = re.compile(r"Trace 0: 0x[0-9a-f]+ \[[0-9a-f]+/([0-9a-f]+)/")


class Step:
    """An instruction that runs: its address, and the 32 registers before it, where the trace has them."""

    def __init__(self, address):
        self.address, self.registers = address, []


def opened(path, program):
    """The file of a trace. One that is older than the program may be the run of another build; a pipe has no age."""
    file = open(path)
    status = os.fstat(file.fileno())
    if stat.S_ISREG(status.st_mode) and status.st_mtime_ns < os.stat(program).st_mtime_ns:
        raise SystemExit(f"{path}: it is older than {program}, so it may be the run of another build")
    return file


def steps(lines):
    """The instructions of a trace, in their order."""
    step = None
    for line in lines:
        found = SINGLE.match(line)
        if found:
            if step:
                yield step
            step = Step(int(found[1], 16))
        elif line.startswith("GPR") and step:
            step.registers += [int(word, 16) for word in line.split()[2::2]]
        elif line.startswith("Stopped execution"):
            # What was traced last didn't run, and is traced again.
            step = None
    if step:
        yield step


def calls(lines, entry):
    """The runs of the function at an entry, each as its steps, from its entering up to where it returns to."""
    last, back, number = [], None, 0

    def numbered():
        nonlocal last, back, number
        for step in steps(lines):
            if step.address == back:
                back, number = None, number + 1
            if back is None and step.address == entry and len(last) == 2:
                # A slot is traced by itself, so the call is the one before the last.
                back = step.registers[31] if step.registers else last[0] + 8
            if back is not None:
                yield number, step
            last = last[-1:] + [step.address]

    for _, group in itertools.groupby(numbered(), key=lambda pair: pair[0]):
        yield [step for _, step in group]
    if back is not None:
        raise SystemExit("the traced run doesn't return from the function")


def units(code, steps):
    """The units of a run: the address, its one or two steps, and where the run goes on, None at the end."""
    at = 0
    while at < len(steps):
        size = 2 if code.is_transfer(steps[at].address) else 1
        onward = steps[at + size].address if at + size < len(steps) else None
        yield steps[at].address, steps[at:at + size], onward
        at += size
