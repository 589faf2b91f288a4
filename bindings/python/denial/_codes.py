"""The codes of denial.h. That file documents each of them."""

from __future__ import annotations

import enum


class Judgement(enum.IntEnum):
    """What the functions `judge_*` return: `enum denial_judgement`."""

    NOT_PROVEN = 32
    OUTSIDE_ZONE = 33
    AT_PARENT = 34
    REFERRAL = 35
    REDIRECTED = 36
    EXISTS = 37
    NO_DS = 38
    ALIAS = 39
    NO_DATA = 40
    WILDCARD = 41
    WILDCARD_ALIAS = 42
    WILDCARD_NO_DATA = 43
    NAME_ERROR = 44
    MAY_BE_UNSIGNED = 45
    NO_CLOSER_NAME = 46
    TOO_MANY_ITERATIONS = 47
    NXNAME = 50


class Verdict(enum.IntEnum):
    """What the functions `check_*` return: the codes of `enum denial_answer` below 16."""

    NOT_PROVEN = 0
    OUTSIDE_ZONE = 1
    BELOW_DELEGATION = 2
    HAS = 3
    NO_TYPE = 4
    EMPTY_NAME = 5
    OPT_OUT = 6
    NO_NAME = 7


class FaultCode(enum.IntEnum):
    """Why there is no result: the codes of `enum denial_answer` from 16 on."""

    BAD_APEX = 16
    BAD_NAME = 17
    BAD_RECORDS = 18
    NO_PARAM = 19
    HASHER_REFUSED = 20
    OUT_OF_MEMORY = 21
    OTHER_CLASS = 22
    NO_SINGLE_SOA = 23
    UNEQUAL_TTLS = 24
    SHORT_BUFFER = 25
    LONG_SALT = 26
    LONG_OWNER = 27
    COLLISION = 28


CHAIN_MADE = 48
NO_COLLISION = 49

# The faults of chains that come with the offset of a record.
WITH_OFFSET = (FaultCode.BAD_RECORDS, FaultCode.OTHER_CLASS, FaultCode.UNEQUAL_TTLS)
