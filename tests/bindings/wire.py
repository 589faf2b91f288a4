"""Makes the wire form of records from their presentation format.

It knows the types of the worked values and of the random zones of tests/bindings.
"""
import base64
import ipaddress
import pathlib
import re
import sys

sys.path.insert(0, str(pathlib.Path(__file__).resolve().parents[2] / "bindings/python"))
from denial import wire_name

TYPES = {
    **{"A": 1, "NS": 2, "CNAME": 5, "SOA": 6, "MX": 15, "TXT": 16, "AAAA": 28, "DNAME": 39},
    **{"DS": 43, "RRSIG": 46, "NSEC": 47, "DNSKEY": 48, "NSEC3": 50, "NSEC3PARAM": 51},
}
CLASSES = {"IN": 1, "CH": 3, "HS": 4}
DIGITS = "0123456789abcdefghijklmnopqrstuv"


class Unread(Exception):
    """The text is in a form that is not read here."""


def type_of(text):
    """Returns the number of a type."""
    if text.upper() in TYPES:
        return TYPES[text.upper()]
    if re.fullmatch(r"TYPE\d+", text):
        return int(text[4:])
    raise Unread(text)


def octets_of(text):
    """Returns the octets of digits of Base 32 hex without padding."""
    value = 0
    for letter in text.lower():
        value = value << 5 | DIGITS.index(letter)
    return (value >> len(text) * 5 % 8).to_bytes(len(text) * 5 // 8, "big")


def bitmap(types):
    """Returns the octets of a type bitmap (RFC 4034, section 4.1.2)."""
    octets = b""
    numbers = sorted({type_of(it) for it in types})
    for window in sorted({number >> 8 for number in numbers}):
        bits = bytearray(32)
        for number in numbers:
            if number >> 8 == window:
                bits[(number & 255) >> 3] |= 128 >> (number & 7)
        bits = bytes(bits).rstrip(b"\0")
        octets += bytes([window, len(bits)]) + bits
    return octets


def salt_of(text):
    """Returns the octets of a salt."""
    return b"" if text == "-" else bytes.fromhex(text)


def sized(octets):
    """Returns octets with their count in front."""
    return bytes([len(octets)]) + octets


def number(word, size):
    """Returns the octets of a number."""
    value = int(word)
    if value >> 8 * size:
        raise Unread(word)
    return value.to_bytes(size, "big")


def numbers_2_1_1(words):
    """Returns the first three numbers of a DS or DNSKEY record."""
    return number(words[0], 2) + number(words[1], 1) + number(words[2], 1)


def parameters(words):
    """Returns the parameters of an NSEC3 or NSEC3PARAM record, up to the salt."""
    numbers = number(words[0], 1) + number(words[1], 1) + number(words[2], 2)
    return numbers + sized(salt_of(words[3]))


def rrsig_data(words):
    """Returns the octets of the data of an RRSIG record."""
    head = number(type_of(words[0]), 2) + number(words[1], 1) + number(words[2], 1)
    times = b"".join(number(it, 4) for it in words[3:6])
    signature = base64.b64decode("".join(words[8:]))
    return head + times + number(words[6], 2) + wire_name(words[7]) + signature


def data_of(rtype, words):
    """Returns the octets of data from their words."""
    if words[:1] == ["\\#"]:
        return bytes.fromhex("".join(words[2:]))
    if rtype == "A":
        return ipaddress.IPv4Address(words[0]).packed
    if rtype in ("NS", "CNAME", "DNAME"):
        return wire_name(words[0])
    if rtype == "MX":
        return number(words[0], 2) + wire_name(words[1])
    if rtype == "SOA":
        numbers = b"".join(number(it, 4) for it in words[2:])
        return wire_name(words[0]) + wire_name(words[1]) + numbers
    if rtype == "DS":
        return numbers_2_1_1(words) + bytes.fromhex("".join(words[3:]))
    if rtype == "DNSKEY":
        return numbers_2_1_1(words) + base64.b64decode("".join(words[3:]))
    if rtype == "RRSIG":
        return rrsig_data(words)
    if rtype == "NSEC":
        return wire_name(words[0]) + bitmap(words[1:])
    if rtype == "NSEC3":
        return parameters(words) + sized(octets_of(words[4])) + bitmap(words[5:])
    if rtype == "NSEC3PARAM":
        return parameters(words)
    raise Unread(rtype)


def record(text):
    """Returns the octets of a record from its line."""
    owner, ttl, rclass, rtype, *words = text.split()
    if rclass not in CLASSES:
        raise Unread(rclass)
    data = data_of(rtype, words)
    numbers = number(type_of(rtype), 2) + number(CLASSES[rclass], 2) + number(ttl, 4)
    return wire_name(owner) + numbers + number(len(data), 2) + data


def records(text):
    """Returns the octets of records with slashes between them."""
    return b"".join(record(it) for it in text.split(" / ") if it.strip())


def published(text):
    """Returns the line of a record as the library writes it: NSEC3PARAM has flags 0.

    The program prints the opt-out flag there, for which name servers ignore the record (RFC 5155,
    section 4.1.2).
    """
    return text.replace(" NSEC3PARAM 1 1 ", " NSEC3PARAM 1 0 ")
