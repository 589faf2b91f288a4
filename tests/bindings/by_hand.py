"""Makes calls that no worked value has: errors, texts, the version, and records of a chain.

bindings/c/denial.h says what each of them returns. The texts are those of tests/c/faults.c.
"""
import pathlib
import re

from wire import record, records, wire_name

HERE = pathlib.Path(__file__).resolve().parent
HEADER = HERE.parents[1] / "bindings/c/denial.h"
TEXTS = HERE.parent / "c/faults.c"
NUMBER = re.compile(r"^ +(DENIAL_\w+) = (\d+)", re.MULTILINE)
TEXT = re.compile(r'\{(DENIAL_\w+|UINT32_MAX)(?: \+ (\d))?, "([^"]+)"\}')
LINES = ["a. 3600 IN SOA b. c. 1 2 3 4 1800", "n.a. 300 IN A 192.0.2.1"]
ZONE = records(" / ".join(LINES))
NSEC = record("n.a. 1800 IN NSEC a. A RRSIG NSEC")
# The hash of a. without salt and further iterations, and a hash after it.
OWNER, NEXT = "qj2k5gbslc63lg0qour6j95c8s2b6ueh", "60oj4cho61gj6dhk69j3ae9n6goj4chp"
NSEC3 = record(f"{OWNER}.a. 1800 IN NSEC3 1 0 0 - {NEXT} SOA RRSIG NSEC3PARAM")
PARAM = record("a. 0 IN NSEC3PARAM 1 0 0 -")
OTHER_PARAM = record("a. 0 IN NSEC3PARAM 2 0 0 -")
# An octet that begins neither a name nor a record.
BAD = b"\x40"
# An apex of 223 octets: the owners of its hashes would have 256.
DEEP = 3 * (b"\x3f" + 63 * b"a") + b"\x1d" + 29 * b"a" + b"\0"


def hexed(octets):
    """Returns octets in Base 16."""
    return octets.hex() or "-"


def bad_questions(call, words, good):
    """Yields the calls with octets that encode no apex, name or records."""
    apex, name = wire_name("a."), wire_name("x.a.")
    for number, octets in (16, (BAD, BAD, BAD)), (17, (apex, BAD, BAD)), (18, (apex, name, BAD)):
        names = f"{hexed(octets[0])} {hexed(octets[1])}"
        yield f"{call} {names} 1 1 {words}{hexed(octets[2])} {number} 0"
    yield f"{call} {hexed(apex)} {hexed(name)} 1 1 {words}{hexed(good + BAD)} 18 0"


def question_faults():
    """Yields the calls that judge or check, and return an error."""
    for call in ("judge_nsec", "check_nsec"):
        yield from bad_questions(call, "", NSEC)
    for call in ("judge_nsec3", "judge_nsec3_expansion", "check_nsec3"):
        words = "" if call == "check_nsec3" else "150 "
        yield from bad_questions(call, words, NSEC3)
        yield from bad_questions(f"{call}_alone", words, NSEC3)
        names = f"{hexed(wire_name('a.'))} {hexed(wire_name('x.a.'))}"
        for number, octets in (19, NSEC3), (19, PARAM + PARAM), (20, OTHER_PARAM):
            yield f"{call} {names} 1 1 {words}{hexed(octets)} {number} 0"


def zones_with_faults():
    """Returns octets that are not of one zone and class, with the error and its offset."""
    other_class = record("n.a. 300 CH A 192.0.2.1")
    return [
        (ZONE + BAD, 18, len(ZONE)),
        (BAD, 18, 0),
        (ZONE + other_class + BAD, 22, len(ZONE)),
        (ZONE + BAD + other_class, 18, len(ZONE)),
    ]


def chain_faults():
    """Yields the calls that make chains, and return an error."""
    apex, salt = hexed(wire_name("a.")), hexed(256 * b"s")
    uneven = record("n.a. 301 IN A 192.0.2.2")
    rows = [
        *zones_with_faults(),
        (NSEC, 23, 0),
        (ZONE + record(LINES[0].replace("1 2", "2 2")), 23, 0),
        (ZONE + uneven, 24, len(ZONE)),
        (uneven + ZONE, 24, len(uneven) + len(record(LINES[0]))),
    ]
    deep = DEEP + ZONE[len(wire_name("a.")) : len(record(LINES[0]))]
    for call, words in ("nsec_chain", "1 1 0"), ("nsec3_chain", "1 1 0 0 - 0"):
        yield f"{call} {hexed(BAD)} {words} {hexed(BAD)} 16 0"
        for octets, number, offset in rows:
            yield f"{call} {apex} {words} {hexed(octets)} {number} {offset}"
    yield f"nsec3_chain {apex} 1 1 0 0 {salt} 0 {hexed(BAD)} 26 0"
    yield f"nsec3_chain {hexed(DEEP)} 1 1 0 0 - 0 {hexed(deep)} 27 0"
    yield f"nsec3_collision {hexed(BAD)} 1 0 0 - 0 {hexed(BAD)} 16 0"
    yield f"nsec3_collision {apex} 1 0 0 {salt} 0 {hexed(BAD)} 26 0"
    for octets, number, _ in zones_with_faults():
        yield f"nsec3_collision {apex} 1 0 0 - 0 {hexed(octets)} {number} 0"


def texts():
    """Yields the calls for texts, by the list of tests/c/faults.c."""
    numbers = dict(NUMBER.findall(HEADER.read_text(encoding="utf-8")))
    numbers["UINT32_MAX"] = (1 << 32) - 1
    for name, more, text in TEXT.findall(TEXTS.read_text(encoding="utf-8")):
        number = int(numbers[name]) + int(more or 0)
        yield f"text {number} {number} {text.encode().hex()}"


def records_of_chain():
    """Yields the calls of what the header itself defines: lengths of names and of records."""
    for octets in (b"\0", wire_name("x.n.a."), wire_name("a.") + NSEC, DEEP):
        end = octets.index(b"\0") + 1
        yield f"name_length {hexed(octets)} {end} 0"
    parts = [NSEC, NSEC3, PARAM]
    for count in range(4):
        lengths = ",".join(str(len(it)) for it in parts[:count]) or "-"
        yield f"each_record {hexed(b''.join(parts[:count]))} {count} {lengths}"


def calls_by_hand():
    """Yields all calls, as the script cases prints them."""
    version = re.search(r"#define DENIAL_VERSION (\d+)", HEADER.read_text(encoding="utf-8"))[1]
    yield f"version {version} 0"
    yield from question_faults()
    yield from chain_faults()
    yield from texts()
    yield from records_of_chain()
