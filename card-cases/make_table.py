#!/usr/bin/env python3
"""make_table.py FOLDER: writes the tables that the cases run on, by 01's "The table"."""
import os, sys


def record(requester, state=0, held=0, flags=0, stream=0, session=0, ranges=(), msix=0, information=b""):
    r = bytearray(256)
    r[0:4] = requester.to_bytes(4, "little")
    r[4], r[5] = state, held
    r[6:8] = flags.to_bytes(2, "little")
    r[8], r[9], r[10] = stream, session, len(ranges)
    r[14:16] = msix.to_bytes(2, "little")
    for k, (first, pages, attributes, number) in enumerate(ranges):
        at = 72 + 16 * k
        r[at : at + 8] = first.to_bytes(8, "little")
        r[at + 8 : at + 12] = pages.to_bytes(4, "little")
        r[at + 12 : at + 14] = attributes.to_bytes(2, "little")
        r[at + 14 : at + 16] = number.to_bytes(2, "little")
    r[200:204] = len(information).to_bytes(4, "little")
    r[204 : 204 + len(information)] = information
    return bytes(r)


def first():
    ranges = [(16 * k + 16, k + 1, 1 if k == 0 else 0, k) for k in range(6)]
    return record(0x100, ranges=ranges, msix=3, information=bytes(range(32, 52)))


def card():
    """The card of the demo: 0100h, six ranges and 20 bytes of information; 0101h in RUN on stream 5 in session 7; 0102h."""
    return first() + record(0x101, state=2, stream=5, session=7) + record(0x102)


TABLES = {
    "card": card,
    "short": lambda: card()[:255],
    "empty": lambda: b"",
    "broken": lambda: first() + record(0x101, state=4),
    "twice": lambda: first() + record(0x101) + record(0x100),
    "full": lambda: b"".join(record(0x200 + k) for k in range(64)),
    "over": lambda: b"".join(record(0x200 + k) for k in range(65)),
}

if __name__ == "__main__":
    for name, table in TABLES.items():
        with open(os.path.join(sys.argv[1], name + ".table"), "wb") as out:
            out.write(table())
