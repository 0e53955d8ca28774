#!/usr/bin/env python3
"""Prints the constant tables of the crate tables as Rattle source.

usage: tables.py bytes|corrections

The tables need not be trusted: each is proved entry by entry by the crate that holds it.
"""
import sys

G = 0x1539


def remainder(v):
    r = 0
    for i in range(62, -1, -1):
        r = r * 2 + (v >> i) % 2
        if r >= 4096:
            r ^= G
    return r


def position(w, i):
    return (w >> (62 - i)) % 2


def run_sums(w):
    """The sums of the run bits 16, 33 and 50 with the positions just before, as a number of three bits."""
    return sum((position(w, i) ^ position(w, i - 1)) << k for k, i in enumerate((50, 33, 16)))


def sums(w):
    return run_sums(w) * 4096 + remainder(w)


def bytes_():
    """Entry 256 k + b: the sums of the frame whose byte k, counted from the lowest, is b."""
    return [sums((b << (8 * k)) >> 1) for k in range(8) for b in range(256)]


def corrections():
    """Entry r: 64 a + b for the places a < b whose flips leave the remainder r, and above these twelve bits the run sums of the flips.
    Place 63 is outside the word: 64 a + 63 is the one place a, and 4095 is no flip. 0 where no places leave r."""
    table = [0] * 4096
    spots = [1 << (62 - i) for i in range(63)] + [0]
    for a in range(64):
        for b in range(a, 64):
            if a < b or a == 63:
                w = spots[a] ^ spots[b]
                assert table[remainder(w)] == 0
                table[remainder(w)] = run_sums(w) * 4096 + a * 64 + b
    return table


def constant(name, doc, entries):
    rows = [entries[i:i + 16] for i in range(0, len(entries), 16)]
    body = "\n".join("    " + ", ".join(map(str, row)) + "," for row in rows)
    return f"// {doc}\n// Made by tools/tables.py.\npub(crate) const {name}: [u16; {len(entries)}] = [\n{body}\n];"


if sys.argv[1:] == ["bytes"]:
    print(constant("BYTES", "The remainder and the run sums of each byte at each of the eight places of a frame.", bytes_()))
elif sys.argv[1:] == ["corrections"]:
    print(constant("CORRECTIONS", "The places to flip for each remainder, and the run sums of the flips.", corrections()))
else:
    sys.exit(__doc__)
