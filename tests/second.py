#!/usr/bin/env python3
"""The bound of a built program by a second method, which has nothing of the analyser: the dearest walk through its net.

usage: second.py ELF [PROFILE], which prints `bound N` or `refused KIND PLACE`
"""
import os
import sys

sys.dont_write_bytecode = True
sys.path.insert(0, os.path.join(os.path.dirname(os.path.abspath(__file__)), "..", "examples", "c"))
from cycles import profile_of  # noqa: E402
from executables import Profile  # noqa: E402
from graphs import Refused  # noqa: E402
from longest import written  # noqa: E402
from nets import analysed  # noqa: E402
from program import Elf  # noqa: E402


class Built:
    """A file as the tests' graphs read it: its executable words, records and symbols."""

    def __init__(self, elf):
        self.elf, self.records, self.entry = elf, elf.records, elf.entry

    def word(self, address):
        return self.elf.words.get(address)

    def covers(self, address):
        return address in self.elf.words

    def targets(self, address):
        return {x for kind, at, x, _ in self.records if kind == 2 and at == address}

    def symbol(self, name):
        return self.elf.symbols.get(name)


def main(path, profile=None):
    try:
        net, program = analysed(Built(Elf(path)), profile_of(profile) if profile else Profile())
    except Refused as refused:
        return str(refused)
    return f"bound {written(net, program)[0]}"


if __name__ == "__main__":
    if len(sys.argv) not in (2, 3):
        raise SystemExit(__doc__)
    print(main(*sys.argv[1:]))
