"""Checks arguments, errors, codes and objects of dnspython.

test_cases.py compares the results of calls.
"""
import doctest
import importlib
import pathlib
import pickle
import unittest

import denial
from denial import Denial, Fault, FaultCode, Judgement, OutOfMemory, Verdict, wire_name

try:
    import dns.message
    import dns.name
    import dns.rdata
    import dns.rrset
    import dns.zone
except ImportError:
    dns = None

A, NSEC = 1, bytes.fromhex("016e016100 002f 0001 00000708 000b 016100 0006400000000003")
APEX, NAME = wire_name("a."), wire_name("x.n.a.")
SOA = "a. 3600 IN SOA b. c. 1 2 3 4 1800"
SOA_OCTETS = bytes.fromhex(
    "016100 0006 0001 00000e10 001a 016200 016300 00000001 00000002 00000003 00000004 00000708"
)
RESPONSE = """id 1
opcode QUERY
rcode NXDOMAIN
flags QR
;QUESTION
x.n.a. IN A
;AUTHORITY
n.a. 1800 IN NSEC a. A RRSIG NSEC
n.a. 1800 IN RRSIG NSEC 13 {labels} 1800 20300101000000 20200101000000 1 a. AAAA
"""


class Arguments(unittest.TestCase):
    """What is checked before the call."""

    def setUp(self):
        self.library = Denial()

    def raises(self, error, call, *words, **others):
        """Checks that a call raises an error of exactly this type."""
        with self.assertRaises(error) as raised:
            call(*words, **others)
        self.assertIs(type(raised.exception), error)
        return str(raised.exception)

    def test_ranges(self):
        """Numbers are in the range of their type in C."""
        judge, library = self.library.judge_nsec, self.library
        for number in (70000, 65536, -1, 1 << 80):
            self.raises(ValueError, judge, APEX, NAME, number, NSEC)
            self.raises(ValueError, judge, APEX, NAME, A, NSEC, rclass=number)
            self.raises(ValueError, library.judge_nsec3, APEX, NAME, A, NSEC, limit=number)
            self.raises(ValueError, library.check_nsec, APEX, NAME, number, NSEC)
            self.raises(ValueError, library.check_nsec3, APEX, NAME, number, NSEC)
            self.raises(ValueError, library.chain_nsec, APEX, NSEC, rclass=number)
            self.raises(ValueError, library.chain_nsec3, APEX, NSEC, iterations=number)
            self.raises(ValueError, library.collision_nsec3, APEX, NSEC, iterations=number)
        for number in (256, -1):
            self.raises(ValueError, library.judge_nsec3_expansion, APEX, NAME, number, NSEC)
        self.raises(ValueError, library.text, 1 << 32)
        self.assertEqual(judge(APEX, NAME, 65535, NSEC).number, Judgement.NAME_ERROR)

    def test_types(self):
        """Octets are no text, and numbers no truth values."""
        judge, library = self.library.judge_nsec, self.library
        said = self.raises(TypeError, judge, "a.", NAME, A, NSEC)
        self.assertIn("wire_name", said)
        self.raises(TypeError, judge, APEX, "x.n.a.", A, NSEC)
        self.raises(TypeError, judge, APEX, NAME, "A", NSEC)
        self.raises(TypeError, judge, APEX, NAME, 1.0, NSEC)
        self.raises(TypeError, judge, APEX, NAME, True, NSEC)
        for records in ("n.a.", None, 7, [7], ["n.a."], [("a.", 1, 2)]):
            self.raises(TypeError, judge, APEX, NAME, A, records)
        self.raises(TypeError, library.chain_nsec, APEX, NSEC, assume_dnskey=1)
        self.raises(TypeError, library.chain_nsec3, APEX, NSEC, salt="abcd")
        self.raises(TypeError, library.chain_nsec3, APEX, NSEC, opt_out=0)
        self.raises(TypeError, library.judge_nsec3, APEX, NAME, A, NSEC, alone=1)
        self.raises(TypeError, wire_name, b"a.")

    def test_octets(self):
        """All kinds of octets give the same answer."""
        wanted = self.library.judge_nsec(APEX, NAME, A, NSEC)
        spread = memoryview(b"".join(bytes([octet, 0]) for octet in NSEC))[::2]
        for records in (bytearray(NSEC), memoryview(NSEC), spread, [NSEC], [b"", bytearray(NSEC)]):
            answer = self.library.judge_nsec(bytearray(APEX), memoryview(NAME), A, records)
            self.assertEqual(answer, wanted)
        self.assertEqual(self.library.judge_nsec(APEX, NAME, A, b"").number, Judgement.NOT_PROVEN)

    def test_names(self):
        """Printed names that are none are ValueErrors."""
        escapes = "a\\", "a\\2", "a\\25x", "a\\256."
        for text in ("", "..", "a..", ".a", *escapes, "\u00e4.", 64 * "a"):
            self.raises_value_error(text)
        self.raises_value_error(".".join(4 * [63 * "a"]))
        self.assertEqual(len(wire_name(".".join([*(3 * [63 * "a"]), 61 * "a"]))), 255)
        self.assertEqual(wire_name("\\065\\.\\\\.b"), b"\x03A.\\\x01b\x00")

    def raises_value_error(self, text):
        """Checks that a printed name is rejected."""
        with self.assertRaises(ValueError, msg=repr(text)):
            wire_name(text)

    def test_cuts(self):
        """Records and names that end too early are ValueErrors, at each place."""
        for end in range(1, len(NSEC)):
            with self.assertRaises(ValueError):
                list(denial.each_record(NSEC[:end]))
        for octets in (b"", b"\x01", b"\x01a", b"\x40" + 70 * b"a", 128 * b"\x01a" + b"\0"):
            with self.assertRaises(ValueError):
                denial.name_length(octets)


class Errors(unittest.TestCase):
    """What the library reports."""

    def test_offset(self):
        """A fault of a zone has its offset, a fault of a question none."""
        with self.assertRaises(Fault) as raised:
            Denial().chain_nsec(APEX, SOA_OCTETS + b"\x40")
        fault = raised.exception
        self.assertIs(fault.number, FaultCode.BAD_RECORDS)
        self.assertEqual((fault.offset, fault.count), (len(SOA_OCTETS), len(SOA_OCTETS)))
        self.assertEqual(str(fault), "malformed records at octet 39")
        again = pickle.loads(pickle.dumps(fault))
        self.assertEqual((type(again), vars(again)), (type(fault), vars(fault)))
        with self.assertRaises(Fault) as raised:
            Denial().judge_nsec(APEX, NAME, A, b"\x40")
        self.assertIsNone(raised.exception.offset)
        self.assertEqual(str(raised.exception), "malformed records")

    def test_memory(self):
        """The error for memory is Python's too."""
        self.assertTrue(issubclass(OutOfMemory, MemoryError) and issubclass(OutOfMemory, Fault))
        self.assertIs(type(Denial()._fault(FaultCode.OUT_OF_MEMORY)), OutOfMemory)
        self.assertIs(type(Denial()._fault(99)), RuntimeError)

    def test_codes(self):
        """The texts of codes are those of their names, and each code has one."""
        library = Denial()
        for code in (*Judgement, *Verdict, *FaultCode):
            self.assertNotIn("no number", library.text(code))
        self.assertEqual(library.text(Judgement.NAME_ERROR), "name error")
        self.assertEqual((Verdict.HAS, FaultCode.BAD_APEX), (3, 16))

    def test_examples(self):
        """The examples of the modules and of README.md print what they show."""
        page = pathlib.Path(__file__).parents[1] / "README.md"
        failed, count = doctest.testfile(str(page), module_relative=False, verbose=False)
        for name in ("denial", "denial._names", "denial._library", "denial._inputs"):
            more = doctest.testmod(importlib.import_module(name), verbose=False)
            failed, count = failed + more.failed, count + more.attempted
        self.assertEqual(failed, 0)
        self.assertGreater(count, 15)


@unittest.skipIf(dns is None, "dnspython is missing; it is in Debian's package python3-dnspython")
class Dnspython(unittest.TestCase):
    """Objects of dnspython in place of octets."""

    def setUp(self):
        self.library = Denial()
        self.apex, self.name = dns.name.from_text("a."), dns.name.from_text("x.n.a.")
        self.nsec = dns.rrset.from_text("n.a.", 1800, "IN", "NSEC", "a. A RRSIG NSEC")

    def judged(self, records):
        """Returns what records prove."""
        return self.library.judge_nsec(self.apex, self.name, dns.rdatatype.A, records).number

    def test_records(self):
        """RRsets and rdata give the answer of their octets."""
        rdata = (self.nsec.name, self.nsec.ttl, self.nsec[0])
        for records in (self.nsec, [self.nsec], [rdata], iter([rdata, NSEC])):
            self.assertIs(self.judged(records), Judgement.NAME_ERROR)
        self.assertIs(self.judged([]), Judgement.NOT_PROVEN)

    def test_message(self):
        """A message counts, but no denial that a wildcard expanded to."""
        message = dns.message.from_text(RESPONSE.format(labels=2))
        self.assertIs(self.judged(message), Judgement.NAME_ERROR)
        self.assertIs(
            self.judged(dns.message.from_wire(message.to_wire())), Judgement.NAME_ERROR
        )
        expanded = dns.message.from_text(RESPONSE.format(labels=1))
        self.assertIs(self.judged(expanded), Judgement.NOT_PROVEN)

    def test_zone(self):
        """A zone has the chain of its octets."""
        text = f"{SOA}\na. 60 IN NS b.\n*.a. 60 IN A 192.0.2.1\n"
        zone = dns.zone.from_text(text, "a.", relativize=False)
        chain = self.library.chain_nsec(self.apex, zone.iterate_rdatas())
        self.assertEqual(len(list(denial.each_record(chain))), 2)
        relative = dns.zone.from_text(text, "a.")
        with self.assertRaises(ValueError):
            self.library.chain_nsec(self.apex, relative.iterate_rdatas())
        with self.assertRaises(ValueError):
            self.library.chain_nsec(dns.name.from_text("a", None), SOA_OCTETS)


if __name__ == "__main__":
    unittest.main()
