"""Executables of words and records, and what the built program takes for them."""
import os
import struct
import subprocess
import time

START = 0x00400000
PROGRAM = os.path.abspath("crates/wcet_cli/out/wcet_cli")


def write(path, words, records=()):
    """Writes an executable of one segment, with its records in a section `.wcet` where there are any."""
    code = struct.pack(f">{len(words)}I", *words)
    marks = b"".join(struct.pack(">4I", *record) for record in records)
    names = b"\0.wcet\0.shstrtab\0"
    at = 84 + len(code)
    tables = (at + len(marks) + len(names), 3, 2) if records else (0, 0, 0)
    ident = b"\x7fELF" + bytes([1, 2, 1]) + bytes(9)
    head = ident + struct.pack(">HHIIIIIHHHHHH", 2, 8, 1, START, 52, tables[0], 0, 52, 32, 1, 40, *tables[1:])
    segment = struct.pack(">8I", 1, 84, START, START, len(code), len(code), 5, 4)
    with open(path, "wb") as file:
        file.write(head + segment + code)
        if records:
            sections = bytes(40) + struct.pack(">10I", 1, 1, 0, 0, at, len(marks), 0, 0, 0, 0)
            sections += struct.pack(">10I", 7, 3, 0, 0, at + len(marks), len(names), 0, 0, 0, 0)
            file.write(marks + names + sections)


def run(path):
    """The answer's first line, the seconds and the peak of memory in KiB."""
    before = time.monotonic()
    child = subprocess.Popen([PROGRAM, "analyse", path], stdout=subprocess.PIPE)
    answer = child.stdout.read().decode().split("\n")[0]
    _, _, usage = os.wait4(child.pid, 0)
    return answer, time.monotonic() - before, usage.ru_maxrss
