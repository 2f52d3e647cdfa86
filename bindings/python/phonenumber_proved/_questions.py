"""The further questions of `phonenumbers` on numbers, kinds and texts."""

from __future__ import annotations

from typing import List, Optional, Set, Union

from . import _regions
from ._plain import (
    MatchType, PhoneNumber, PhoneNumberType, ValidationResult, leading_zeros,
    national_significant_number,
)
from .errors import NoNumber, UnknownRegion
from .number import Kind, Possibility, Rules, Source, _again
from .number import PhoneNumber as _Read
from .questions import Form, has_letters, is_geographical, mobile_token, normalize

#: The numbers of the kinds. A kind that isn't there, as that of a short code, is none there.
TYPES = {
    kind: getattr(PhoneNumberType, kind.name)
    for kind in Kind
    if hasattr(PhoneNumberType, kind.name)
}

#: The kinds of the numbers.
_KINDS = {it: kind for kind, it in TYPES.items()}

#: The numbers of what a count of digits says.
RESULTS = {
    Possibility.POSSIBLE: ValidationResult.IS_POSSIBLE,
    Possibility.POSSIBLE_LOCALLY: ValidationResult.IS_POSSIBLE_LOCAL_ONLY,
    Possibility.TOO_SHORT: ValidationResult.TOO_SHORT,
    Possibility.TOO_LONG: ValidationResult.TOO_LONG,
    Possibility.WRONG_LENGTH: ValidationResult.INVALID_LENGTH,
    Possibility.UNKNOWN_CODE: ValidationResult.INVALID_COUNTRY_CODE,
}


def _read(numobj: PhoneNumber, source: Source = Source.PLUS) -> Optional[_Read]:
    """The number for the library; none where a field is past what it takes."""
    code, value = numobj.country_code or 0, numobj.national_number or 0
    zeros, carrier = leading_zeros(numobj), numobj.preferred_domestic_carrier_code or None
    if not (0 <= code < 1 << 16 and 0 <= value < 1 << 56 and zeros < 1 << 8):
        return None
    told, rules = int(source), int(Rules.LIBRARY)
    return _again(value, code, told, zeros, numobj.extension or None, carrier, rules)


def asked(numobj: PhoneNumber, source: Source = Source.PLUS) -> Optional[_Read]:
    """The same, for a question to the table of the world."""
    read = _read(numobj, source)
    return None if read is None else read.on(_regions.world())


def is_valid_number_for_region(numobj: PhoneNumber, region_code: Optional[str]) -> bool:
    """Whether such numbers are given out in a region, or in `001` for a code that is no region's."""
    read = asked(numobj)
    return read is not None and read.is_valid_for(region_code or "")


def is_possible_number_for_type_with_reason(numobj: PhoneNumber, numtype: int) -> int:
    """Whether the count of a number's digits is possible for a kind, of `ValidationResult`."""
    read = asked(numobj)
    if read is not None:
        return RESULTS[read.library_possibility_as(_KINDS.get(numtype, Kind.UNKNOWN))]
    is_known = _regions.world().main_region(numobj.country_code or 0) is not None
    return ValidationResult.TOO_LONG if is_known else ValidationResult.INVALID_COUNTRY_CODE


def is_possible_number_for_type(numobj: PhoneNumber, numtype: int) -> bool:
    """Whether the count of a number's digits is possible for a kind, perhaps in an area alone."""
    result = is_possible_number_for_type_with_reason(numobj, numtype)
    return result in (ValidationResult.IS_POSSIBLE, ValidationResult.IS_POSSIBLE_LOCAL_ONLY)


def can_be_internationally_dialled(numobj: PhoneNumber) -> bool:
    """Whether a number can be dialled from abroad; so it is said of one that isn't valid as well."""
    read = asked(numobj)
    return read is None or read.about.is_dialled_from_abroad


def is_number_geographical(numobj: PhoneNumber) -> bool:
    """Whether a number is of a place."""
    read = asked(numobj)
    return read is not None and read.about.is_geographical


def is_number_type_geographical(num_type: int, country_code: int) -> bool:
    """Whether numbers of a kind are of a place under a calling code."""
    return is_geographical(_KINDS.get(num_type, Kind.UNKNOWN), country_code)


def length_of_geographical_area_code(numobj: PhoneNumber) -> int:
    """How many digits of a number are the code of its area; 0 where it has none."""
    read = asked(numobj)
    return 0 if read is None else read.about.area_length


def length_of_national_destination_code(numobj: PhoneNumber) -> int:
    """How many digits of a number are its national destination code; 0 where it has none."""
    read = asked(numobj)
    return 0 if read is None else read.about.destination_length


def truncate_too_long_number(numobj: PhoneNumber) -> bool:
    """Cuts digits off the end of a number until it is valid; false, and nothing, if it can't be.

    >>> from phonenumber_proved import phonenumbers
    >>> number = phonenumbers.parse("+64 3 331 60059")
    >>> phonenumbers.truncate_too_long_number(number), number.national_number
    (True, 33316005)
    """
    read = asked(numobj)
    left = None if read is None else read.truncated()
    if left is not None:
        numobj.national_number = int(left.national)
    return left is not None


def format_national_number_with_carrier_code(numobj: PhoneNumber, carrier_code: str) -> str:
    """The national text of a number as it is dialled with the selection code of a carrier."""
    read = asked(numobj)
    return national_significant_number(numobj) if read is None else read.national_with(carrier_code)


def format_national_number_with_preferred_carrier_code(
    numobj: PhoneNumber, fallback_carrier_code: str
) -> str:
    """The same with the number's `preferred_domestic_carrier_code`, if it has one."""
    read = asked(numobj)
    if read is None:
        return national_significant_number(numobj)
    return read.national_with(fallback_carrier_code, prefers_own=True)


def is_number_match(num1: Union[PhoneNumber, str], num2: Union[PhoneNumber, str]) -> int:
    """How like two numbers or texts are, of `MatchType`. A text may lack its calling code.

    Where one has a calling code, a text without it is parsed in the main region of that code. A
    number with a field past what the library takes is none.

    >>> from phonenumber_proved import phonenumbers
    >>> match = phonenumbers.is_number_match("+64 3 331 6005", "03 331 6005")
    >>> phonenumbers.MatchType.to_string(match)
    'NSN_MATCH'
    """
    if isinstance(num2, PhoneNumber) and not isinstance(num1, PhoneNumber):
        num1, num2 = num2, num1
    try:
        if not isinstance(num1, PhoneNumber):
            return int(_regions.world().library_match(num1, str(num2)))
        one, two = asked(num1), asked(num2) if isinstance(num2, PhoneNumber) else num2
        return MatchType.NOT_A_NUMBER if one is None or two is None else int(one.library_match(two))
    except NoNumber:
        return MatchType.NOT_A_NUMBER


def _types(kinds: List[Kind]) -> Set[int]:
    return {TYPES[kind] for kind in kinds}


def supported_types_for_region(region_code: Optional[str]) -> Set[int]:
    """The kinds of number that a region has, of `PhoneNumberType`; none of an unknown region."""
    try:
        return _types(_regions.world().region_kinds(region_code or ""))
    except UnknownRegion:
        return set()


def supported_types_for_non_geo_entity(country_code: int) -> Set[int]:
    """The kinds of number of a calling code that is no region's; none of other codes."""
    return _types(_regions.world().code_kinds(country_code))


def country_mobile_token(country_code: int) -> str:
    """What stands before the area code of a mobile number of a calling code: `9` for 54."""
    return mobile_token(country_code)


def is_alpha_number(number: str) -> bool:
    """Whether a text is a number that is written with letters, three at least."""
    return has_letters(number)


def convert_alpha_characters_in_number(number: str) -> str:
    """A text with each letter turned to the digit of its key.

    >>> from phonenumber_proved import phonenumbers
    >>> phonenumbers.convert_alpha_characters_in_number("1-800-FLOWERS")
    '1-800-3569377'
    """
    return normalize(Form.KEYS, number)


def normalize_diallable_chars_only(number: str) -> str:
    """The digits from 0 to 9, plus signs, stars and number signs of a text."""
    return normalize(Form.DIALLABLE, number)
