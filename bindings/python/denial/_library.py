"""The calls of libdenial, over ctypes."""

from __future__ import annotations

import ctypes
import pathlib
from typing import Any, Callable, NamedTuple, SupportsIndex, Union

from ._codes import CHAIN_MADE, NO_COLLISION, WITH_OFFSET, FaultCode, Judgement, Verdict
from ._inputs import Name, Octets, Records, flag_of, name_of, number_of, octets_of, records_of
from ._names import name_length

SONAME = "libdenial.so.0"
TEXT_ROOM = 32
NAME_ROOM = 255
SIZED = [ctypes.c_char_p, ctypes.c_size_t]
NUMBER, FLAG, SIZE = ctypes.c_uint16, ctypes.c_bool, ctypes.c_size_t
OUT, BUFFER = ctypes.POINTER(ctypes.c_size_t), ctypes.c_void_p
TEXT = ctypes.POINTER(ctypes.POINTER(ctypes.c_char * TEXT_ROOM))
QUESTION, CHAIN = [*SIZED, *SIZED], [*SIZED, BUFFER, SIZE, OUT]
HASHING = [NUMBER, *SIZED, FLAG]
# What each function takes. All but `find_text` return a code.
TAKES: dict[str, list[Any]] = {
    "version": [],
    "find_text": [ctypes.c_uint32, TEXT],
    **{
        call: [*QUESTION, NUMBER, NUMBER, *SIZED, OUT]
        for call in ("judge_nsec", "check_nsec", "check_nsec3", "check_nsec3_alone")
    },
    **{
        call: [*QUESTION, NUMBER, NUMBER, NUMBER, *SIZED, OUT]
        for call in ("judge_nsec3", "judge_nsec3_alone")
    },
    **{
        call: [*QUESTION, ctypes.c_uint8, NUMBER, NUMBER, *SIZED, OUT]
        for call in ("judge_nsec3_expansion", "judge_nsec3_expansion_alone")
    },
    "nsec_chain": [*SIZED, NUMBER, FLAG, FLAG, *CHAIN],
    "nsec3_chain": [*SIZED, NUMBER, FLAG, FLAG, *HASHING, *CHAIN],
    "nsec3_collision": [*SIZED, NUMBER, FLAG, *HASHING, *SIZED, BUFFER, BUFFER],
}


class Answer(NamedTuple):
    """What records prove: the code, its text, and the count of labels that comes with it, or 0.

    The labels are the last ones of the name in the question: those of the closest encloser, of a
    zone cut, or of an owner of a DNAME record. denial.h says which.
    """

    number: Union[Judgement, Verdict]
    text: str
    labels: int


class Fault(Exception):
    """Why there is no result.

    `number` is the code, `text` its text. `offset` is the place of the fault: the offset of a
    record in the octets of the zone, or None. `count` is the number that came with the code.
    """

    def __init__(self, number: FaultCode, text: str, count: int = 0, offset: int | None = None):
        super().__init__(number, text, count, offset)
        self.number, self.text, self.count, self.offset = number, text, count, offset

    def __str__(self) -> str:
        return self.text if self.offset is None else f"{self.text} at octet {self.offset}"


class OutOfMemory(Fault, MemoryError):
    """There is not enough memory."""


def _sized(*parts: bytes) -> list[bytes | int]:
    """Returns octets, each with its length after it."""
    return [it for octets in parts for it in (octets, len(octets))]


def _zone(apex: Name, rclass: SupportsIndex) -> list[bytes | int]:
    """Returns the arguments for a zone."""
    return [*_sized(name_of(apex, "apex")), number_of(rclass, "rclass")]


def _hashing(iterations: SupportsIndex, salt: Octets, opt_out: bool) -> list[bytes | int]:
    """Returns the arguments for hashes."""
    numbers = number_of(iterations, "iterations"), *_sized(octets_of(salt, "salt"))
    return [*numbers, flag_of(opt_out, "opt_out")]


def _flags(assume_dnskey: bool, occlude_below_dname: bool) -> tuple[bool, bool]:
    """Returns the arguments for what a chain lists and leaves out."""
    occlude = flag_of(occlude_below_dname, "occlude_below_dname")
    return flag_of(assume_dnskey, "assume_dnskey"), occlude


class Denial:
    """The library: the one of the package, or else the one that the loader finds.

    Pass a path to load another one. Calls may run at the same time in any threads.
    """

    def __init__(self, path: str | None = None) -> None:
        bundled = pathlib.Path(__file__).with_name(SONAME)
        self._library = ctypes.CDLL(path or (str(bundled) if bundled.exists() else SONAME))
        for name, takes in TAKES.items():
            call = getattr(self._library, f"denial_{name}")
            call.argtypes, call.restype = takes, None if name == "find_text" else ctypes.c_uint32

    def version(self) -> int:
        """Returns the version: 10000 * major + 100 * minor + patch."""
        return self._library.denial_version()

    def text(self, number: SupportsIndex) -> str:
        """Returns the text of a code.

        >>> Denial().text(44)
        'name error'
        """
        text = ctypes.pointer((ctypes.c_char * TEXT_ROOM)())
        self._library.denial_find_text(number_of(number, "number", 32), ctypes.byref(text))
        return text.contents.value.decode("ascii")

    def _fault(self, number: int, count: int = 0, offset: int | None = None) -> Exception:
        """Returns the exception for a code."""
        if number not in FaultCode.__members__.values():
            return RuntimeError(f"the library returned the unknown code {number}")
        of_memory = number == FaultCode.OUT_OF_MEMORY
        kind = OutOfMemory if of_memory else Fault
        return kind(FaultCode(number), self.text(number), count, offset)

    def _answer(
        self,
        call: str,
        codes: type[Judgement] | type[Verdict],
        names: tuple[Name, Name],
        numbers: tuple[int, ...],
        records: Records,
    ) -> Answer:
        """Calls a function that judges or checks, and returns the answer."""
        labels = ctypes.c_size_t(0)
        question = _sized(name_of(names[0], "apex"), name_of(names[1], "name"))
        octets = _sized(records_of(records))
        function = getattr(self._library, f"denial_{call}")
        number = function(*question, *numbers, *octets, ctypes.byref(labels))
        if number not in codes.__members__.values():
            raise self._fault(number, labels.value)
        return Answer(codes(number), self.text(number), labels.value)

    def judge_nsec(
        self,
        apex: Name,
        name: Name,
        rtype: SupportsIndex,
        records: Records,
        rclass: SupportsIndex = 1,
    ) -> Answer:
        """Returns the whole answer of NSEC records about a name and a type."""
        numbers = number_of(rtype, "rtype"), number_of(rclass, "rclass")
        return self._answer("judge_nsec", Judgement, (apex, name), numbers, records)

    def judge_nsec3(
        self,
        apex: Name,
        name: Name,
        rtype: SupportsIndex,
        records: Records,
        rclass: SupportsIndex = 1,
        limit: SupportsIndex = 150,
        alone: bool = False,
    ) -> Answer:
        """Returns the whole answer of NSEC3 records about a name and a type.

        The records include the one NSEC3PARAM record of the apex. With `alone` the first NSEC3
        record gives the parameters, as in a response.
        """
        call = "judge_nsec3_alone" if flag_of(alone, "alone") else "judge_nsec3"
        numbers = number_of(rtype, "rtype"), number_of(rclass, "rclass"), number_of(limit, "limit")
        return self._answer(call, Judgement, (apex, name), numbers, records)

    def judge_nsec3_expansion(
        self,
        apex: Name,
        name: Name,
        rrsig_labels: SupportsIndex,
        records: Records,
        rclass: SupportsIndex = 1,
        limit: SupportsIndex = 150,
        alone: bool = False,
    ) -> Answer:
        """Returns the whole answer of NSEC3 records about data that a wildcard expanded to.

        `rrsig_labels` is the field Labels of the signatures of the data. `alone` is that of
        `judge_nsec3`.
        """
        is_alone = flag_of(alone, "alone")
        call = "judge_nsec3_expansion_alone" if is_alone else "judge_nsec3_expansion"
        labels = number_of(rrsig_labels, "rrsig_labels", 8)
        numbers = labels, number_of(rclass, "rclass"), number_of(limit, "limit")
        return self._answer(call, Judgement, (apex, name), numbers, records)

    def check_nsec(
        self,
        apex: Name,
        name: Name,
        rtype: SupportsIndex,
        records: Records,
        rclass: SupportsIndex = 1,
    ) -> Answer:
        """Returns what NSEC records prove of one name and one type."""
        numbers = number_of(rtype, "rtype"), number_of(rclass, "rclass")
        return self._answer("check_nsec", Verdict, (apex, name), numbers, records)

    def check_nsec3(
        self,
        apex: Name,
        name: Name,
        rtype: SupportsIndex,
        records: Records,
        rclass: SupportsIndex = 1,
        alone: bool = False,
    ) -> Answer:
        """Returns what NSEC3 records prove of one name and one type.

        `alone` is that of `judge_nsec3`.
        """
        call = "check_nsec3_alone" if flag_of(alone, "alone") else "check_nsec3"
        numbers = number_of(rtype, "rtype"), number_of(rclass, "rclass")
        return self._answer(call, Verdict, (apex, name), numbers, records)

    def _chain(self, call: Callable[..., int], *words: Any) -> bytes:
        """Calls a function with a buffer, whose size the first call returns; returns the chain."""
        room = 0
        while True:
            chain, count = ctypes.create_string_buffer(max(room, 1)), ctypes.c_size_t(0)
            number = call(*words, chain, room, ctypes.byref(count))
            if number == CHAIN_MADE:
                return chain.raw[: count.value]
            if number != FaultCode.SHORT_BUFFER:
                offset = count.value if number in WITH_OFFSET else None
                raise self._fault(number, count.value, offset)
            room = count.value

    def chain_nsec(
        self,
        apex: Name,
        records: Records,
        rclass: SupportsIndex = 1,
        assume_dnskey: bool = True,
        occlude_below_dname: bool = False,
    ) -> bytes:
        """Returns the NSEC chain of a zone. The records of the zone may have any order."""
        flags = _flags(assume_dnskey, occlude_below_dname)
        call = self._library.denial_nsec_chain
        return self._chain(call, *_zone(apex, rclass), *flags, *_sized(records_of(records)))

    def chain_nsec3(
        self,
        apex: Name,
        records: Records,
        rclass: SupportsIndex = 1,
        iterations: SupportsIndex = 0,
        salt: Octets = b"",
        opt_out: bool = False,
        assume_dnskey: bool = True,
        occlude_below_dname: bool = False,
    ) -> bytes:
        """Returns the NSEC3 chain of a zone by SHA-1, and its NSEC3PARAM record at the end."""
        flags = _flags(assume_dnskey, occlude_below_dname)
        words = *_zone(apex, rclass), *flags, *_hashing(iterations, salt, opt_out)
        call = self._library.denial_nsec3_chain
        return self._chain(call, *words, *_sized(records_of(records)))

    def collision_nsec3(
        self,
        apex: Name,
        records: Records,
        rclass: SupportsIndex = 1,
        iterations: SupportsIndex = 0,
        salt: Octets = b"",
        opt_out: bool = False,
        occlude_below_dname: bool = False,
    ) -> tuple[bytes, bytes] | None:
        """Returns two names with the same hash, for which a zone has no NSEC3 chain, or None.

        The names are in lower case. The first one is earlier in canonical order.
        """
        occlude = flag_of(occlude_below_dname, "occlude_below_dname")
        words = *_zone(apex, rclass), occlude, *_hashing(iterations, salt, opt_out)
        first, second = (ctypes.create_string_buffer(NAME_ROOM) for _ in range(2))
        call = self._library.denial_nsec3_collision
        number = call(*words, *_sized(records_of(records)), first, second)
        if number == NO_COLLISION:
            return None
        if number != FaultCode.COLLISION:
            raise self._fault(number)
        return first.raw[: name_length(first.raw)], second.raw[: name_length(second.raw)]
