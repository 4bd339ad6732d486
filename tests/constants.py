#!/usr/bin/env python3
"""Digits are worked out: no constant array has them.

    tests/constants.py FILE..

Reads archives and object files by objdump. Each constant array in them is a text with fewer than four digits,
or one of the two arrays of std that are listed. What else stands in the read-only data are constants of
instructions, whose symbols are .LCPI, and tables of jumps, which have a relocation for each entry.
"""

import os
import re
import subprocess
import sys

# Std's arrays: the powers of ten of `checked_ilog10`, and the character for what is no UTF-8.
STD = [b"".join((10**k).to_bytes(8, "little") for k in range(20)), "\ufffd".encode()]


def objdump(path):
    """What objdump says of the members of a file: their sections, symbols and relocations."""
    words = ["objdump", "-s", "-t", "-r", "-w", path]
    env = dict(os.environ, LC_ALL="C")
    told = subprocess.run(words, check=True, capture_output=True, text=True, env=env).stdout
    return re.split(r"(?m)^.*:\s+file format .*$", told)[1:]


def sections(member):
    """The data sections of a member, each by its name and bytes."""
    for part in member.split("Contents of section ")[1:]:
        name, rows = part.split(":\n", 1)
        if re.match(r"\.rodata|\.data|\.tdata", name):
            found = re.findall(r"(?m)^ [0-9a-f]+ ((?:[0-9a-f]{2,8} ){1,4})", rows)
            yield name, bytes.fromhex("".join(found))


def jumps(member, name, data):
    """Whether a section is a table of jumps: four bytes a relocation, to the code of a function."""
    heading = f"RELOCATION RECORDS FOR [{name}]:"
    if heading not in member:
        return False
    rows = member.split(heading)[1].split("\n\n")[0].splitlines()[2:]
    return 4 * len(rows) == len(data) and all(" R_X86_64_PC32 " in row and ".text." in row for row in rows)


def arrays(member):
    """The constant arrays of a member, each by its name and bytes."""
    for name, data in sections(member):
        if jumps(member, name, data):
            continue
        if not re.match(r"\.rodata\.(cst|str)", name):
            yield name, data
            continue
        for row in re.findall(rf"(?m)^.* {re.escape(name)}\t.*$", member):
            start, _, kind, size, symbol = re.match(r"(\w+) (.{6})(.) \S+\t(\w+) +(\S+)$", row).groups()
            if kind != "d" and not re.fullmatch(r"\.LCPI\d+_\d+", symbol):
                yield symbol, data[int(start, 16) :][: int(size, 16)]


def faults(path):
    """What is wrong with a file."""
    members = objdump(path)
    size = sum(len(data) for member in members for name, data in sections(member) if name.startswith(".rodata"))
    print(f"constants: {path}: {size} bytes of read-only data")
    if not size:
        yield "no read-only data was found"
    for member in members:
        for name, data in arrays(member):
            text = re.fullmatch(rb"[\n\t -~]*\0?", data) and len(re.findall(rb"[0-9]", data)) < 4
            if not text and data not in STD:
                yield f"{name}, an array of {len(data)} bytes: {data[:32]}"


if len(sys.argv) < 2:
    sys.exit("usage: tests/constants.py FILE..")
found = [f"constants: {path}: {fault}" for path in sys.argv[1:] for fault in faults(path)]
print("\n".join(found) if found else "constants: no array of digits")
sys.exit(bool(found))
