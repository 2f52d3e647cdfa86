"""libphonenumber's further questions: what they tell, and those that need no database."""

from __future__ import annotations

import ctypes
import enum
from typing import NamedTuple

from ._calls import OK, Text, bytes_of, lib, refuse, written


class NumberMatch(enum.IntEnum):
    """How like two numbers are, by libphonenumber's answers; `Sameness` has others."""

    NOT_A_NUMBER = 0
    """One of two texts is no number."""
    NO_MATCH = 1
    """Two numbers."""
    SHORT_NSN_MATCH = 2
    """One's national number is an end of the other's; or they are one, and just one has an
    extension."""
    NSN_MATCH = 3
    """One national number; the calling code of one isn't known, or was guessed."""
    EXACT_MATCH = 4
    """One calling code, one national number, and one extension or none."""


class Form(enum.IntEnum):
    """What is made of a text by `normalize`."""

    KEYS = 0
    """Each letter is turned to the digit of its key; all else stays."""
    DIGITS = 1
    """The values of its digits of any script, as 0 to 9; nothing else stays."""
    DIALLABLE = 2
    """Its digits from 0 to 9, plus signs, stars and number signs; nothing else stays."""


class Cost(enum.IntEnum):
    """What a call of a short number costs."""

    TOLL_FREE = 0
    STANDARD_RATE = 1
    PREMIUM_RATE = 2
    UNKNOWN = 3


class FactsAnywhere(NamedTuple):
    """What is known of a number as a short number of the regions of its calling code."""

    is_possible: bool
    """The count of its digits is possible in one of them."""
    is_valid: bool
    """It is a short number of one of them."""
    cost: Cost
    """The first that it costs, in those that know it, of premium rate, an unknown cost, standard
    rate, nothing."""
    is_carrier_specific: bool
    """Only some carriers connect it, in the first region whose short number it is."""
    library_cost: Cost
    """The same cost in all of them, as libphonenumber has it: unknown where one doesn't know it."""


class RegionFacts(NamedTuple):
    """What is known of a region."""

    code: int
    """Its calling code, as 64 for New Zealand."""
    is_nanpa: bool
    """Whether that is 1, of the North American Numbering Plan."""
    is_portable: bool
    """Whether a mobile number is kept when the carrier is changed."""


class NumberFacts(NamedTuple):
    """What is known of a number, its digits being those of the national number."""

    area_length: int
    """How many of its digits are its area's code; 0 where it has none."""
    destination_length: int
    """How many are its national destination code; 0 where it has none."""
    is_geographical: bool
    """Whether it is of a place."""
    is_dialled_from_abroad: bool
    """Whether it can be dialled from abroad, as libphonenumber has it: unless its region says that
    it is dialled at home alone. So it is also said of a number that isn't valid, unlike by
    `PhoneNumber.reaches_from_abroad`."""


def code_of(code: int) -> int:
    """A calling code for a call: one that has no room there is listed nowhere, as 0."""
    return code if 0 <= code < 1 << 16 else 0


def mobile_token(code: int) -> str:
    """What stands before the area code of a mobile number of a calling code.

    >>> from phonenumber_proved import mobile_token
    >>> mobile_token(54), mobile_token(64)
    ('9', '')
    """
    return written(lambda *out: lib.phone_mobile_token(code_of(code), *out), 8).decode()


def is_geographical(kind: int, code: int) -> bool:
    """Whether numbers of a kind are of a place under a calling code.

    >>> from phonenumber_proved import Kind, is_geographical
    >>> is_geographical(Kind.MOBILE, 54), is_geographical(Kind.MOBILE, 64)
    (True, False)
    """
    told = ctypes.c_uint8()
    status = lib.phone_is_geographical(int(kind), code_of(code), ctypes.byref(told))
    return told.value == 1 if status == OK else refuse(status)


def normalize(form: Form, text: Text) -> str:
    """A text in a form.

    >>> from phonenumber_proved import Form, normalize
    >>> normalize(Form.KEYS, "1-800-FLOWERS"), normalize(Form.DIALLABLE, "*21# (x)")
    ('1-800-3569377', '*21#')
    """
    data, made = bytes_of(text), Form(form)
    call = lib.phone_normalize
    return written(lambda *out: call(made, data, len(data), *out), len(data) + 1).decode()


def has_letters(text: Text) -> bool:
    """Whether a text is a number that is written with letters, three at least.

    >>> from phonenumber_proved import has_letters
    >>> has_letters("1-800-FLOWERS"), has_letters("03-331 6005")
    (True, False)
    """
    data, told = bytes_of(text), ctypes.c_uint8()
    return bool(lib.phone_has_letters(data, len(data), ctypes.byref(told)) == OK and told.value)


def extract(text: Text) -> str:
    """The part of a text in which a number may stand; empty where there is none.

    It begins with the first digit or plus sign, and ends before a second number.

    >>> from phonenumber_proved import extract
    >>> extract("Ring 03-331 6005!"), extract("call me")
    ('03-331 6005', '')
    """
    data, call = bytes_of(text), lib.phone_extract
    return written(lambda *out: call(data, len(data), *out), len(data) + 1).decode()


def match_of(status: int, told: ctypes.c_uint32) -> NumberMatch:
    """The match that a call tells."""
    return NumberMatch(told.value) if status == OK else refuse(status)
