"""The names of the Python package `phonenumbers`, for the calls that the library has.

A program that uses no others changes its import alone; for other packages that import `phonenumbers`
there is `install()`:

    >>> from phonenumber_proved import phonenumbers
    >>> number = phonenumbers.parse("020 8366 1177", "GB")
    >>> print(number)
    Country Code: 44 National Number: 2083661177
    >>> phonenumbers.format_number(number, phonenumbers.PhoneNumberFormat.INTERNATIONAL)
    '+44 20 8366 1177'
    >>> phonenumbers.is_valid_number(number), phonenumbers.region_code_for_number(number)
    (True, 'GB')

What is parsed, formatted, found in texts and told of kind, region, validity, count of digits and
short numbers is what the library's calls answer, by libphonenumber's rules; so are areas' lengths,
kinds of regions, matches, and what is of one region or code. Lists of regions are Python over the table,
of which nothing is proved. The first call opens a table of some 6 MB, which
all threads have, and the child of a fork after it.

An unknown region is none, as there. A national number of 2^56 or more, as some of 17 digits are,
is too long. Where versions of libphonenumber differ, the rules are a newer one's: a text with
`;phone-context=1` is no number. `AsYouTypeFormatter` shows what `Database.library_typed` does, and
`PhoneNumberMatcher` finds what `Database.matches` does.
"""

from __future__ import annotations

import sys
from typing import Any, Dict, FrozenSet, List, Optional, Tuple

from .. import _of_regions, _regions
from .._dialling import (
    format_by_pattern, format_in_original_format, format_number, format_number_for_mobile_dialing,
    format_out_of_country_calling_number, format_out_of_country_keeping_alpha_chars,
)
from .._matches import Leniency, PhoneNumberMatch, PhoneNumberMatcher
from .._metadata import NumberFormat, PhoneMetadata, PhoneNumberDesc
from .._of_regions import (
    REGION_CODE_FOR_NON_GEO_ENTITY, UNKNOWN_REGION, country_code_for_region,
    country_code_for_valid_region, is_mobile_number_portable_region, is_nanpa_country,
    is_supported, ndd_prefix_for_region, normalize_digits_only, region_code_for_country_code,
    region_codes_for_country_code, supported_calling_codes,
)
from .._plain import (
    CountryCodeSource, FrozenPhoneNumber, MatchType, NumberParseException, PhoneNumber,
    PhoneNumberFormat, PhoneNumberType, ShortNumberCost, ValidationResult,
    national_significant_number, plain_number,
)
from .._questions import (
    RESULTS, TYPES, asked, can_be_internationally_dialled, convert_alpha_characters_in_number,
    country_mobile_token, format_national_number_with_carrier_code,
    format_national_number_with_preferred_carrier_code, is_alpha_number, is_number_geographical,
    is_number_match, is_number_type_geographical, is_possible_number_for_type,
    is_possible_number_for_type_with_reason, is_valid_number_for_region,
    length_of_geographical_area_code, length_of_national_destination_code,
    normalize_diallable_chars_only, supported_types_for_non_geo_entity,
    supported_types_for_region, truncate_too_long_number,
)
from .._shorts import (
    connects_to_emergency_number, example_short_number as _example_short_number,
    example_short_number_for_cost as _example_short_number_for_cost, expected_cost,
    expected_cost_for_region, is_carrier_specific, is_carrier_specific_for_region,
    is_emergency_number, is_possible_short_number, is_possible_short_number_for_region,
    is_sms_service_for_region, is_valid_short_number, is_valid_short_number_for_region,
)
from ..errors import NoNumber, UnknownRegion
from ..number import Kind, Source
from ..questions import extract as _extract

__all__ = [
    "AsYouTypeFormatter", "COUNTRY_CODES_FOR_NON_GEO_REGIONS", "COUNTRY_CODE_TO_REGION_CODE",
    "CountryCodeSource", "FrozenPhoneNumber", "Leniency", "MatchType", "NumberFormat",
    "NumberParseException", "PhoneMetadata", "PhoneNumber", "PhoneNumberDesc", "PhoneNumberFormat",
    "PhoneNumberMatch", "PhoneNumberMatcher", "PhoneNumberType", "REGION_CODE_FOR_NON_GEO_ENTITY",
    "SUPPORTED_REGIONS", "SUPPORTED_SHORT_REGIONS", "ShortNumberCost", "UNKNOWN_REGION",
    "ValidationResult", "can_be_internationally_dialled", "connects_to_emergency_number",
    "convert_alpha_characters_in_number", "country_code_for_region",
    "country_code_for_valid_region", "country_mobile_token", "example_number",
    "example_number_for_non_geo_entity", "example_number_for_type", "expected_cost",
    "expected_cost_for_region", "format_by_pattern", "format_in_original_format",
    "format_national_number_with_carrier_code",
    "format_national_number_with_preferred_carrier_code", "format_number",
    "format_number_for_mobile_dialing", "format_out_of_country_calling_number",
    "format_out_of_country_keeping_alpha_chars", "invalid_example_number", "is_alpha_number", "is_carrier_specific",
    "is_carrier_specific_for_region", "is_emergency_number", "is_mobile_number_portable_region",
    "is_nanpa_country", "is_number_geographical", "is_number_match", "is_number_type_geographical",
    "is_possible_number", "is_possible_number_for_type", "is_possible_number_for_type_with_reason",
    "is_possible_number_string", "is_possible_number_with_reason", "is_possible_short_number",
    "is_possible_short_number_for_region", "is_sms_service_for_region", "is_valid_number",
    "is_valid_number_for_region", "is_valid_short_number", "is_valid_short_number_for_region",
    "length_of_geographical_area_code",
    "length_of_national_destination_code", "national_significant_number", "ndd_prefix_for_region",
    "normalize_diallable_chars_only", "normalize_digits_only", "number_type", "parse",
    "region_code_for_country_code", "region_code_for_number", "region_codes_for_country_code",
    "supported_calling_codes", "supported_types_for_non_geo_entity", "supported_types_for_region",
    "truncate_too_long_number",
]

COUNTRY_CODE_TO_REGION_CODE: Dict[int, Tuple[str, ...]]
COUNTRY_CODES_FOR_NON_GEO_REGIONS: FrozenSet[int]
SUPPORTED_REGIONS: FrozenSet[str]
SUPPORTED_SHORT_REGIONS: List[str]


def __getattr__(name: str) -> Any:
    return _of_regions.constant(name)


_SOURCES = {
    Source.PLUS: CountryCodeSource.FROM_NUMBER_WITH_PLUS_SIGN,
    Source.IDD: CountryCodeSource.FROM_NUMBER_WITH_IDD,
    Source.NUMBER: CountryCodeSource.FROM_NUMBER_WITHOUT_PLUS_SIGN,
    Source.DEFAULT: CountryCodeSource.FROM_DEFAULT_COUNTRY,
}

#: The numbers of the refusals, by those of `phone.h`; any other text is no number.
_REFUSALS = {
    2: NumberParseException.INVALID_COUNTRY_CODE,
    3: NumberParseException.TOO_SHORT_AFTER_IDD,
    4: NumberParseException.TOO_SHORT_NSN,
    5: NumberParseException.TOO_LONG,
}


def parse(
    number: str, region: Optional[str] = None, keep_raw_input: bool = False,
    numobj: Optional[PhoneNumber] = None, _check_region: bool = True,
) -> PhoneNumber:
    """The number that a text is; `NumberParseException` where it is none.

    `keep_raw_input` sets the text, how the calling code was found, and a carrier that was dialled.
    Where `_check_region` is false, digits without a calling code or a region are a number of code 0.
    """
    refused = NumberParseException
    if number is None:
        raise refused(refused.NOT_A_NUMBER, "The phone number supplied was None.")
    hint = region if is_supported(region) else None
    try:
        read = _regions.world().parse(number, hint)
    except NoNumber as error:
        type_of_error = _REFUSALS.get(error.status, refused.NOT_A_NUMBER)
        if _check_region or region is not None or type_of_error != refused.INVALID_COUNTRY_CODE:
            raise refused(type_of_error, error.words) from None
        return _without_code(number, keep_raw_input, numobj)
    it = plain_number(read, numobj)
    if keep_raw_input:
        it.raw_input, it.country_code_source = number, _SOURCES[read.source]
        it.preferred_domestic_carrier_code = read.carrier or it.preferred_domestic_carrier_code
    return it


def _without_code(number: str, keep_raw_input: bool, numobj: Optional[PhoneNumber]) -> PhoneNumber:
    """The number that a text is without a calling code, which is then 0."""
    refused = NumberParseException
    try:
        it = plain_number(_regions.codeless().parse(number, _regions.CODELESS), numobj)
    except NoNumber as error:
        raise refused(_REFUSALS.get(error.status, refused.NOT_A_NUMBER), error.words) from None
    it.country_code = 0
    if keep_raw_input:
        it.raw_input, it.country_code_source = number, CountryCodeSource.UNSPECIFIED
    return it


def number_type(numobj: PhoneNumber) -> int:
    """The kind of a number, of `PhoneNumberType`."""
    read = asked(numobj)
    kind = Kind.UNKNOWN if read is None else read.kind
    return TYPES.get(kind, PhoneNumberType.UNKNOWN)


def region_code_for_number(numobj: PhoneNumber) -> Optional[str]:
    """The region of a number: `None` where it has none, `001` where its code is no region's."""
    regions = region_codes_for_country_code(numobj.country_code or 0)
    if regions == (REGION_CODE_FOR_NON_GEO_ENTITY,):
        return REGION_CODE_FOR_NON_GEO_ENTITY
    read = asked(numobj)
    return None if read is None else read.region


def is_valid_number(numobj: PhoneNumber) -> bool:
    """Whether such numbers are given out."""
    read = asked(numobj)
    return read is not None and read.is_valid


def is_possible_number_with_reason(numobj: PhoneNumber) -> int:
    """Whether the count of a number's digits is possible under its code, of `ValidationResult`."""
    read = asked(numobj)
    if read is not None:
        return RESULTS[read.possibility]
    is_known = bool(region_codes_for_country_code(numobj.country_code or 0))
    return ValidationResult.TOO_LONG if is_known else ValidationResult.INVALID_COUNTRY_CODE


def is_possible_number(numobj: PhoneNumber) -> bool:
    """Whether the count of a number's digits is possible, perhaps within an area alone."""
    result = is_possible_number_with_reason(numobj)
    return result in (ValidationResult.IS_POSSIBLE, ValidationResult.IS_POSSIBLE_LOCAL_ONLY)


def is_possible_number_string(number: str, region_dialing_from: Optional[str]) -> bool:
    """Whether a text is a number whose count of digits is possible."""
    try:
        return is_possible_number(parse(number, region_dialing_from))
    except NumberParseException:
        return False


def example_number_for_type(region_code: Optional[str], num_type: int) -> Optional[PhoneNumber]:
    """An example of the numbers of a kind in a region, or in any where that is `None`."""
    kinds = [kind for kind, it in TYPES.items() if it == num_type and kind != Kind.UNKNOWN]
    if region_code is not None and not is_supported(region_code):
        return None
    for kind in kinds:
        world = _regions.world()
        read = world.example(region_code, kind) if region_code else world.example_of_kind(kind)
        if read is not None:
            return plain_number(read)
    return None


def example_number(region_code: Optional[str]) -> Optional[PhoneNumber]:
    """An example of the fixed-line numbers in a region."""
    return example_number_for_type(region_code, PhoneNumberType.FIXED_LINE)


def example_number_for_non_geo_entity(country_calling_code: int) -> Optional[PhoneNumber]:
    """An example of the numbers of a calling code that serves no region."""
    read = _regions.world().example_of_code(country_calling_code)
    return None if read is None else plain_number(read)


def invalid_example_number(region_code: Optional[str]) -> Optional[PhoneNumber]:
    """A number of a region that isn't valid, for tests."""
    try:
        read = _regions.world().invalid_example(region_code or "")
    except UnknownRegion:
        return None
    return None if read is None else plain_number(read)


def _extract_possible_number(number: str) -> str:
    """The part of a text in which a number may stand; empty where there is none."""
    return _extract(number)


class AsYouTypeFormatter:
    """A number as it is typed, character by character.

    >>> formatter = AsYouTypeFormatter("US")
    >>> [formatter.input_digit(key) for key in "16502"]
    ['1', '16', '1 65', '1 (650', '1 (650) 2']
    """

    def __init__(self, region_code: str) -> None:
        region = region_code.upper()
        self._hint = region if is_supported(region) else None
        self.clear()

    def clear(self) -> None:
        """Takes all characters away."""
        self._typed, self._remembered = "", 0

    def input_digit(self, next_char: str, remember_position: bool = False) -> str:
        """Types a character; returns what is shown.

        After one that is no digit, nor a plus sign before all else, all are shown as they were
        typed.
        """
        self._typed += next_char
        if remember_position:
            self._remembered = len(self._typed)
        return _regions.world().library_typed(self._typed, self._hint)

    def get_remembered_position(self) -> int:
        """After how many characters of what is shown the one stands that was remembered."""
        return _regions.world().library_caret(self._typed, self._remembered, self._hint)


from . import (  # noqa: E402
    asyoutypeformatter, carrier, geocoder, phonemetadata, phonenumber, phonenumbermatcher,
    phonenumberutil, shortnumberinfo, timezone,
)

#: The modules of that package that are here.
_MODULES = (
    asyoutypeformatter, carrier, geocoder, phonemetadata, phonenumber, phonenumbermatcher,
    phonenumberutil, shortnumberinfo, timezone,
)


def install() -> None:
    """Makes `import phonenumbers`, here and in other packages, give this one, from now on.

    `RuntimeError` where that package is imported already: what imported it would keep it.
    """
    there, own = sys.modules.get("phonenumbers"), sys.modules[__name__]
    if there not in (None, own):
        raise RuntimeError("phonenumbers is imported already: call install() before")
    sys.modules["phonenumbers"] = own
    for it in _MODULES:
        sys.modules["phonenumbers." + it.__name__.rpartition(".")[2]] = it
