"""DNSSEC denial of existence by a proved library: what records prove, and the chains of zones.

>>> from denial import Denial, Judgement, wire_name
>>> nsec = bytes.fromhex("016e016100 002f 0001 00000708 000b 016100 0006400000000003")
>>> library = Denial()
>>> answer = library.judge_nsec(wire_name("a."), wire_name("x.n.a."), 1, nsec)
>>> answer
Answer(number=<Judgement.NAME_ERROR: 44>, text='name error', labels=2)
>>> answer.number is Judgement.NAME_ERROR
True

`nsec` holds the record `n.a. 1800 IN NSEC a. A RRSIG NSEC`.

Names and records are octets in wire form without compression. Records follow one another. With
dnspython you may pass its names, messages, RRsets and records too. An error of the library is a
`Fault`. An argument of a wrong type is a TypeError, and a number out of range is a ValueError.

The library verifies no signature. Pass only records whose signatures you have verified.
"""

from ._codes import FaultCode, Judgement, Verdict
from ._inputs import Name, Octets, Records
from ._library import Answer, Denial, Fault, OutOfMemory
from ._names import each_record, name_length, wire_name

IN = 1
"""The number of the class Internet."""

__all__ = [
    "IN",
    "Answer",
    "Denial",
    "Fault",
    "FaultCode",
    "Judgement",
    "Name",
    "Octets",
    "OutOfMemory",
    "Records",
    "Verdict",
    "each_record",
    "name_length",
    "wire_name",
]
