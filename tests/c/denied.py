#!/usr/bin/env python3
"""Calls the C library from Python, by bindings/python/denial, and compares verdicts and answers.

    denied.py LIBRARY

LIBRARY is the shared library, or one that was linked from the archive (docs/reference/c.md). The
script passes one or two records of a chain, and checks what comes back.
"""
import pathlib
import struct
import sys

sys.dont_write_bytecode = True
sys.path.insert(0, str(pathlib.Path(__file__).resolve().parents[2] / "bindings/python"))
from denial import IN, Denial, wire_name

HAS, NO_TYPE, NO_NAME = 3, 4, 7
EXISTS, NO_DATA, NAME_ERROR = 37, 40, 44
A, SOA, NSEC = 1, 6, 47


def nsec_record(owner, next_name, bitmap):
    """Returns the wire form of an NSEC record; the bitmap is that of its first window."""
    data = wire_name(next_name) + bytes([0, len(bitmap)]) + bitmap
    return wire_name(owner) + struct.pack("!HHIH", NSEC, IN, 1800, len(data)) + data


# a. lists SOA, RRSIG and NSEC, and n.a. comes next. n.a. lists A, RRSIG and NSEC.
FIRST = nsec_record("a.", "n.a.", bytes([0x02, 0, 0, 0, 0, 0x03]))
WHOLE = FIRST + nsec_record("n.a.", "a.", bytes([0x40, 0, 0, 0, 0, 0x03]))
VERDICTS = [
    ("a.", SOA, FIRST, (HAS, "has", 0)),
    ("a.", A, FIRST, (NO_TYPE, "no type", 0)),
    ("b.a.", A, FIRST, (NO_NAME, "no name", 1)),
]
ANSWERS = [
    ("a.", SOA, FIRST, (EXISTS, "exists", 0)),
    ("a.", A, FIRST, (NO_DATA, "no data", 0)),
    ("b.a.", A, FIRST, (NAME_ERROR, "name error", 1)),
    ("q.n.a.", A, WHOLE, (NAME_ERROR, "name error", 2)),
]


def main():
    """Calls the library, and compares."""
    library, apex = Denial(sys.argv[1]), wire_name("a.")
    for call, rows in ((library.check_nsec, VERDICTS), (library.judge_nsec, ANSWERS)):
        for name, rtype, records, wanted in rows:
            said = call(apex, wire_name(name), rtype, records)
            if said != wanted:
                sys.exit(f"differs: Python: {name} {rtype}: {tuple(said)}, not {wanted}")
    print(f"same: Python, over version {library.version()}")


main()
