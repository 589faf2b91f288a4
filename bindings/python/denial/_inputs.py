"""Checks the arguments of a call before ctypes sees them, and makes octets of them.

dnspython is no dependency. Its objects are accepted if the program has imported it.
"""

from __future__ import annotations

import operator
import struct
import sys
from typing import TYPE_CHECKING, Any, Iterable, Iterator, SupportsIndex, Tuple, Union

if TYPE_CHECKING:
    import dns.message
    import dns.name
    import dns.rdata
    import dns.rrset

Octets = Union[bytes, bytearray, memoryview]
Name = Union[Octets, "dns.name.Name"]
Record = Union[Octets, "dns.rrset.RRset", Tuple[Name, int, "dns.rdata.Rdata"]]
Records = Union[Octets, "dns.message.Message", "dns.rrset.RRset", Iterable[Record]]

RRSIG, NSEC, NSEC3 = 46, 47, 50


def number_of(value: SupportsIndex, what: str, bits: int = 16) -> int:
    """Returns a number that fits in some bits."""
    if isinstance(value, bool) or not hasattr(value, "__index__"):
        raise TypeError(f"{what} must be an integer, not {type(value).__name__}")
    number = operator.index(value)
    if not 0 <= number < 1 << bits:
        raise ValueError(f"{what} must be from 0 to {(1 << bits) - 1}, not {number}")
    return number


def flag_of(value: bool, what: str) -> bool:
    """Returns a truth value."""
    if not isinstance(value, bool):
        raise TypeError(f"{what} must be bool, not {type(value).__name__}")
    return value


def octets_of(value: Octets, what: str) -> bytes:
    """Returns a copy of octets, which no other thread can change during a call."""
    if isinstance(value, (bytes, bytearray, memoryview)):
        return bytes(value)
    raise TypeError(f"{what} must be bytes, bytearray or memoryview, not {type(value).__name__}")


def name_of(value: Name, what: str) -> bytes:
    """Returns the octets of a name."""
    if _is(value, "dns.name", "Name"):
        return _wire_name(value)
    if isinstance(value, str):
        raise TypeError(f"{what} must be octets, not str: wire_name makes them of a printed name")
    return octets_of(value, what)


def records_of(value: Records) -> bytes:
    """Returns the octets of records."""
    if isinstance(value, (bytes, bytearray, memoryview)):
        return bytes(value)
    if _is(value, "dns.message", "Message"):
        return b"".join([*_of_section(value.answer), *_of_section(value.authority)])
    if _is(value, "dns.rrset", "RRset"):
        return _of_rrset(value)
    if isinstance(value, str) or not hasattr(value, "__iter__"):
        raise TypeError(f"records must be octets or records, not {type(value).__name__}")
    return b"".join(map(_of_item, value))


def _is(value: object, module: str, name: str) -> bool:
    """Says whether a value is of a class of dnspython, without importing that."""
    return module in sys.modules and isinstance(value, getattr(sys.modules[module], name))


def _wire_name(name: Any) -> bytes:
    """Returns the octets of a name of dnspython."""
    if not name.is_absolute():
        raise ValueError(f"the name {name} is relative; read zones with relativize=False")
    return name.to_wire()


def _of_item(item: Any) -> bytes:
    """Returns the octets of one of several records: octets, an RRset, or (owner, TTL, rdata)."""
    if isinstance(item, (bytes, bytearray, memoryview)):
        return bytes(item)
    if _is(item, "dns.rrset", "RRset"):
        return _of_rrset(item)
    if isinstance(item, tuple) and len(item) == 3 and _is(item[2], "dns.rdata", "Rdata"):
        return _of_rdata(*item)
    raise TypeError(f"no record is of type {type(item).__name__}")


def _of_rdata(owner: Any, ttl: int, rdata: Any) -> bytes:
    """Returns the octets of a record of dnspython."""
    ttl = number_of(ttl, "a TTL", 32)
    data = rdata.to_wire()
    head = struct.pack("!HHIH", rdata.rdtype, rdata.rdclass, ttl, len(data))
    return name_of(owner, "an owner") + head + data


def _of_rrset(rrset: Any) -> bytes:
    """Returns the octets of the records of an RRset, in its order."""
    return b"".join(_of_rdata(rrset.name, rrset.ttl, rdata) for rdata in rrset)


def _of_section(section: Any) -> Iterator[bytes]:
    """Yields the octets of the RRsets of a section, without denials that a wildcard expanded to."""
    for rrset in section:
        if rrset.rdtype not in (NSEC, NSEC3) or not _is_expanded(rrset, section):
            yield _of_rrset(rrset)


def _is_expanded(rrset: Any, section: Any) -> bool:
    """Says whether a signature of an RRset has another field Labels than its owner has labels.

    Then the RRset was expanded from a wildcard, and would deny names that exist (CVE-2017-15105).
    """
    count = len(rrset.name.labels) - 1 - rrset.name.is_wild()
    return any(
        signature.labels != count
        for other in section
        if other.rdtype == RRSIG and other.name == rrset.name and other.covers == rrset.rdtype
        for signature in other
    )
