#!/usr/bin/env python3
"""pec_vectors.py [--check FILE]: prints what the program pec_vectors must print, worked out anew from the SMBus rule; or compares FILE with it.

The rule (SMBus specification, "Packet Error Checking"): the bits of a message, each byte's high bit first, with eight zeros after them, are
divided by the polynomial x^8 + x^2 + x + 1, and the remainder is the code. It is done here as on paper, a bit at a time, with no table and no
step of the crate smbus_pec.

Four strings of each length from 0 to 64, and four of 8,192 bytes, are cut one after the other from one pseudo-random sequence of bytes. A line
has a string's length and its code, twice: the program prints it by both its forms. After a change to the strings:

    python3 tests/pec_vectors.py > crates/pec_vectors/stdout
"""
import sys

POLYNOMIAL = 1 << 8 | 1 << 2 | 1 << 1 | 1


def code(message):
    remainder = 0
    for byte in message + bytes(1):
        for place in range(7, -1, -1):
            remainder = remainder << 1 | byte >> place & 1
            if remainder & 1 << 8:
                remainder ^= POLYNOMIAL
    return remainder


def sequence(x=1):
    while True:
        x = (x * 1103515245 + 12345) % 2**32
        yield x >> 24


def lines():
    source = sequence()
    for length in [*range(65), 8192]:
        for _ in range(4):
            found = code(bytes(next(source) for _ in range(length)))
            yield f"{length} {found:02x} {found:02x}\n"


def main(words):
    expected = list(lines())
    if not words:
        sys.stdout.writelines(expected)
        return
    if len(words) != 2 or words[0] != "--check":
        sys.exit(__doc__)
    found = open(words[1]).readlines()
    if found != expected:
        differ = next((i for i, pair in enumerate(zip(found, expected)) if pair[0] != pair[1]), min(len(found), len(expected)))
        sys.exit(f"{words[1]}: line {differ + 1} is not what the SMBus rule gives")
    print(f"{words[1]}: {len(expected)} codes by the SMBus rule")


main(sys.argv[1:])
