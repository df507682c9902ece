#!/usr/bin/env python3
"""What `wcet` adds to a refusal: the function and the source line of its place, and how large a program is; of a profile
that isn't TOML the line.

usage: where.py KIND ELF PLACE, the words of the refusal, PLACE in hexadecimal
       where.py config-text PROFILE
"""
import sys

sys.dont_write_bytecode = True
from program import Code, Elf, Places, functions, size  # noqa: E402


def tell_line(path):
    """What Python's reader says of a profile, with the line. Python has one from 3.11 on."""
    import tomllib
    try:
        with open(path, "rb") as file:
            tomllib.load(file)
    except ValueError as fault:
        print(f" here: {path}: {fault}")


def main(kind, path, place):
    elf = Elf(path)
    address = int(place, 16)
    print(f" here: {Places(elf, [address]).text(address)}")
    if kind == "too-many-units":
        sizes = size(functions(Code(elf), address), address)
        if sizes:
            print(" here: {:,} contexts and {:,} places".format(*sizes))


if __name__ == "__main__":
    if len(sys.argv) == 3 and sys.argv[1] == "config-text":
        tell_line(sys.argv[2])
    elif len(sys.argv) == 4:
        main(*sys.argv[1:])
    else:
        raise SystemExit(__doc__)
