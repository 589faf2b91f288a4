"""Names and records as octets in wire form without compression (RFC 1035, section 3.1)."""

from __future__ import annotations

import re
from typing import Iterator

from ._inputs import Octets, octets_of

LABEL, NAME = 63, 255
# What a printed name is made of: \DDD, an escaped letter, a dot, another letter.
PART = re.compile(r"\\([0-9]{3})|\\([^0-9])|(\.)|([^\\])", re.DOTALL)


def wire_name(text: str) -> bytes:
    r"""Returns the octets of a printed name (RFC 1035, section 5.1), with or without a last dot.

    >>> wire_name("www.a.").hex(" ")
    '03 77 77 77 01 61 00'
    >>> wire_name(".").hex()
    '00'
    >>> wire_name(r"a\.b\032c.").hex(" ")
    '05 61 2e 62 20 63 00'
    >>> wire_name("a..b.")
    Traceback (most recent call last):
        ...
    ValueError: not a name: 'a..b.'
    """
    if not isinstance(text, str):
        raise TypeError(f"a printed name must be str, not {type(text).__name__}")
    labels = [b""] if text == "." else _labels(text)
    octets = b"".join(bytes([len(label)]) + label for label in labels if len(label) <= LABEL)
    is_name = b"" not in labels[:-1] and all(len(label) <= LABEL for label in labels)
    if not is_name or not text or len(octets) > NAME:
        raise ValueError(f"not a name: {text!r}")
    return octets


def _labels(text: str) -> list[bytes]:
    """Returns the labels of a printed name, with that of the root."""
    labels, label, at = [], bytearray(), 0
    while at < len(text):
        part = PART.match(text, at)
        if part is None or part[1] and int(part[1]) > 255:
            raise ValueError(f"not a name: {text!r}")
        if part[3]:
            labels.append(bytes(label))
            label.clear()
        else:
            label += bytes([int(part[1])]) if part[1] else (part[2] or part[4]).encode("ascii")
        at = part.end()
    return [*labels, bytes(label), b""] if label else [*labels, b""]


def name_length(octets: Octets) -> int:
    """Returns the count of octets of the name that octets begin with.

    >>> name_length(b"\\x01a\\x00 and more")
    3
    """
    octets = octets_of(octets, "a name")
    end = _end_of_name(octets, 0)
    if end is None:
        raise ValueError("the octets begin with no name")
    return end


def each_record(records: Octets) -> Iterator[bytes]:
    """Yields the octets of each record of a chain.

    >>> nsec = bytes.fromhex("016e016100 002f 0001 00000708 000b 016100 0006400000000003")
    >>> [len(record) for record in each_record(nsec + nsec)]
    [26, 26]
    """
    records, at = octets_of(records, "records"), 0
    while at < len(records):
        data = _end_of_name(records, at)
        end = None if data is None else data + 10
        if end is not None and end <= len(records):
            end += int.from_bytes(records[end - 2 : end], "big")
        if end is None or end > len(records):
            raise ValueError(f"no record begins at octet {at}")
        yield records[at:end]
        at = end


def _end_of_name(octets: bytes, at: int) -> int | None:
    """Returns the offset behind the name at an offset, or None if there is no name."""
    start = at
    while at < len(octets) and octets[at]:
        if octets[at] > LABEL:
            return None
        at += 1 + octets[at]
    return at + 1 if at < len(octets) and at + 1 - start <= NAME else None
