#!/usr/bin/env bash
# Time and peak memory of the reader on large and on hostile ELF files.
# The peak is at least that of the Python which starts the program, some 14,000 KiB.
# usage: bench/elf.sh [FOLDER]   (the files are made in FOLDER, or in a new one that is removed again)
set -eu
source "$(dirname "$0")/folder.sh"
python3 - "$folder" <<'PYTHON'
"""Makes the files. Some are a header, a table of program headers at 52, and the bytes of the segments;
some are a header, the bytes of sections from 52 on, and a table of section headers."""
import os
import random
import struct
import sys

FOLDER = sys.argv[1]
MOST = 65534  # e_phnum is below 65,535
CODE = struct.pack(">II", 0x03E00008, 0)  # jr $31, nop
MIB = 1 << 20


def header(count):
    ident = b"\x7fELF" + bytes([1, 2, 1]) + bytes(9)
    return ident + struct.pack(
        ">HHIIIIIHHHHHH", 2, 8, 1, 0x00400000, 52, 0, 0, 52, 32, count, 40, 0, 0
    )


def program_header(offset, address, file_size, size, flags=5):
    return struct.pack(">8I", 1, offset, address, address, file_size, size, flags, 4)


def write(name, headers, data):
    with open(os.path.join(FOLDER, name), "wb") as file:
        file.write(header(len(headers)) + b"".join(headers) + data)


def section_header(name, kind, offset, size, link=0):
    return struct.pack(">10I", name, kind, 0, 0, offset, size, link, 0, 0, 0)


def write_sections(name, sections, data):
    """The ELF header, the data from 52 on, and the section headers; section 1 holds the names."""
    head = bytearray(header(0))
    struct.pack_into(">I", head, 0x20, 52 + len(data))
    struct.pack_into(">2H", head, 0x30, len(sections), 1)
    with open(os.path.join(FOLDER, name), "wb") as file:
        file.write(bytes(head) + data + b"".join(sections))


def record_sections(name, count, records, at):
    """Section headers that all name the same records, whose bytes fill the rest of 16 MiB, by the name at
    this place."""
    table = 40 * (count + 2)
    room = (16 * MIB - 52 - 16 - table) // 16
    data = b"\0.wcet\0".ljust(16, b"\0") + records * room
    section = section_header(at, 1, 68, 16 * room)
    names = section_header(0, 3, 52, 16 * room + 16)
    write_sections(name, [bytes(40), names] + [section] * count, data)


def symbol_table(name, strings, entry):
    """As many symbols as 16 MiB hold beside these strings."""
    room = (16 * MIB - 52 - 120 - len(strings)) // 16
    data = strings + b"".join(entry(number) for number in range(room))
    names = section_header(0, 3, 52, len(strings))
    table = section_header(0, 2, 52 + len(strings), 16 * room, 1)
    write_sections(name, [bytes(40), names, table], data)


def symbol(name, section=1):
    return struct.pack(">3I2BH", name, 0x00400000, 4, 0x12, 0, section)


def one_byte_segments(name, addresses):
    """One code segment, and then a segment of one byte at each address."""
    count = len(addresses) + 1
    data = 52 + 32 * count
    headers = [program_header(data, 0x00400000, 8, 8)]
    headers += [program_header(data, address, 1, 1, 4) for address in addresses]
    write(name, headers, CODE)


rising = [0x10000000 + 4 * n for n in range(MOST - 1)]
shuffled = list(rising)
random.Random(1).shuffle(shuffled)
one_byte_segments("rising.elf", rising)
one_byte_segments("falling.elf", rising[::-1])
one_byte_segments("shuffled.elf", shuffled)
one_byte_segments("overlap-at-the-end.elf", rising[:-1] + [rising[0]])
write("return.elf", [program_header(84, 0x00400000, 8, 8)], CODE)
part = 16 * MIB - 84
write("16-mib.elf", [program_header(84, 0x00400000, part, part)], CODE + bytes(part - 8))
write("64-mib-of-zeros.elf", [program_header(84, 0x00400000, 8, 64 * MIB)], CODE)
write("no-segments.elf", [bytes(32)] * MOST, b"")

# Sections: as many as a header can count, which all name the same bytes as records, those that the file
# has room for. In the first file every record is lawful, so that only the 65,537th is bad; in the others
# the first record is bad, and the second of them has its name far from the names' beginning.
LAWFUL = struct.pack(">4I", 1, 0x00400000, 5, 0)
record_sections("records-shared.elf", 65533, LAWFUL, 1)
record_sections("records-names-far.elf", 65533, b"\0.wcet\0".ljust(16, b"x"), 16 * 800000 + 1)
record_sections("records-bad.elf", 65533, bytes(16), 1)
# One section of the 65,536 records that are allowed, and as many sections that are named otherwise.
room = 65536
data = b"\0.wcet\0".ljust(16, b"\0") + LAWFUL * room
named = section_header(1, 1, 68, 16 * room)
other = section_header(2, 1, 68, 16 * room)
names = section_header(0, 3, 52, len(data))
write_sections("records-allowed.elf", [bytes(40), names, named] + [other] * 65532, data)
# Symbol tables of a million entries: no names, short names, and one name of 1,025 or of 60 bytes.
symbol_table("symbols-none.elf", bytes(16), lambda number: symbol(0))
symbol_table("symbols-short.elf", b"f\0".ljust(16, b"\0"), lambda number: symbol(0))
symbol_table("symbols-60.elf", b"f" * 60 + bytes(4), lambda number: symbol(0))
symbol_table("symbols-1024.elf", b"f" * 1024 + bytes(16), lambda number: symbol(0))
symbol_table("symbols-1025.elf", b"f" * 1025 + bytes(15), lambda number: symbol(0))
PYTHON
printf '%-24s %10s %8s %10s  %s\n' file bytes seconds 'peak KiB' 'status and output'
for file in return rising falling shuffled overlap-at-the-end no-segments 16-mib 64-mib-of-zeros \
    records-shared records-names-far records-bad records-allowed \
    symbols-none symbols-short symbols-60 symbols-1024 symbols-1025; do
    python3 - "$folder/$file.elf" <<'PYTHON'
import os
import resource
import subprocess
import sys
import time

path = sys.argv[1]
start = time.monotonic()
run = subprocess.run(["./wcet", "analyse", path], capture_output=True, text=True)
seconds = time.monotonic() - start
peak = resource.getrusage(resource.RUSAGE_CHILDREN).ru_maxrss
name = os.path.basename(path)[:-4]
said = " ".join((run.stdout + run.stderr).split())[:60]
print(f"{name:24} {os.path.getsize(path):10} {seconds:8.2f} {peak:10}  {run.returncode} {said}")
PYTHON
done
