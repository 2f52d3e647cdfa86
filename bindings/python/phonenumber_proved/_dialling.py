"""How `phonenumbers` formats numbers: as they were written, to be dialled, by own layouts."""

from __future__ import annotations

import functools
from typing import Iterable, Optional, Tuple

from ._metadata import NumberFormat
from ._of_regions import is_supported
from ._plain import (
    CountryCodeSource, PhoneNumber, PhoneNumberFormat, national_significant_number,
)
from ._questions import asked
from .layouts import Layout, Layouts
from .number import Mode, Source

#: How a calling code was found, by that package's numbers.
_SOURCES = {
    CountryCodeSource.FROM_NUMBER_WITH_PLUS_SIGN: Source.PLUS,
    CountryCodeSource.FROM_NUMBER_WITH_IDD: Source.IDD,
    CountryCodeSource.FROM_NUMBER_WITHOUT_PLUS_SIGN: Source.NUMBER,
    CountryCodeSource.FROM_DEFAULT_COUNTRY: Source.DEFAULT,
}


def _source(numobj: PhoneNumber) -> Source:
    """How the calling code was found; by a plus sign where that isn't known."""
    return _SOURCES.get(numobj.country_code_source, Source.PLUS)


def _region(region_code: Optional[str]) -> Optional[str]:
    """A region that the metadata have."""
    return region_code if is_supported(region_code) else None


def format_number(numobj: PhoneNumber, num_format: int) -> str:
    """The text in a format; the national number's digits where no region has the calling code.

    The text that was read stands for a number whose value is 0.
    """
    read = asked(numobj, _source(numobj))
    if read is not None:
        return read.format_read(Mode(num_format), numobj.raw_input)
    digits = national_significant_number(numobj)
    is_e164 = num_format == PhoneNumberFormat.E164
    return f"+{numobj.country_code}{digits}" if is_e164 else digits


def format_out_of_country_calling_number(
    numobj: PhoneNumber, region_calling_from: Optional[str]
) -> str:
    """How a number is dialled from a region; international text where there is no such region."""
    read = asked(numobj, _source(numobj))
    if read is None:
        return national_significant_number(numobj)
    return read.text_from(_region(region_calling_from), numobj.raw_input)


def format_out_of_country_keeping_alpha_chars(
    numobj: PhoneNumber, region_calling_from: Optional[str]
) -> str:
    """How a number is dialled from a region with the letters of its `raw_input`.

    >>> from phonenumber_proved import phonenumbers
    >>> number = phonenumbers.parse("1-800-FLOWERS", "US", keep_raw_input=True)
    >>> phonenumbers.format_out_of_country_keeping_alpha_chars(number, "NZ")
    '00 1 800-FLOWERS'
    """
    raw = numobj.raw_input or None
    read = asked(numobj, _source(numobj))
    if read is None:
        return raw or national_significant_number(numobj)
    return read.text_with_letters(_region(region_calling_from), raw)


def format_number_for_mobile_dialing(
    numobj: PhoneNumber, region_calling_from: Optional[str], with_formatting: bool
) -> str:
    """What a mobile phone dials to reach a number in a region; empty where it can't be dialled.

    >>> from phonenumber_proved import phonenumbers
    >>> number = phonenumbers.parse("03-331 6005", "NZ")
    >>> phonenumbers.format_number_for_mobile_dialing(number, "US", False)
    '+6433316005'
    """
    read = asked(numobj, _source(numobj))
    if read is None:
        return numobj.raw_input or ""
    call = read.library_mobile_text
    return call(region_calling_from or "", with_formatting, numobj.raw_input)


def format_in_original_format(numobj: PhoneNumber, region_calling_from: Optional[str]) -> str:
    """A number in the way in which its `raw_input` was written; no digit of that is lost.

    Where the number doesn't say how its calling code was found, this is its national text. A layout
    that writes the digits as they are then counts as none.

    >>> from phonenumber_proved import phonenumbers
    >>> number = phonenumbers.parse("3 331-6005", "NZ", keep_raw_input=True)
    >>> phonenumbers.format_in_original_format(number, "NZ")
    '3 331 6005'
    """
    raw = numobj.raw_input or None
    read = asked(numobj, _source(numobj))
    if read is None:
        return raw or national_significant_number(numobj)
    if numobj.country_code_source not in _SOURCES:
        text = read.original_text(None)
        return raw if raw is not None and text.startswith(read.national) else text
    return read.original_text(_region(region_calling_from), raw)


@functools.lru_cache(maxsize=64)
def _layouts(layouts: Tuple[Layout, ...]) -> Layouts:
    """Layouts, opened once for all threads."""
    return Layouts(layouts)


def _layout(of: NumberFormat) -> Layout:
    """A layout of that package, whose templates name groups by backslashes."""
    template, leading = (of.format or "").replace("\\", "$"), of.leading_digits_pattern
    rule = (of.national_prefix_formatting_rule or "").replace("\\1", "$FG")
    return Layout(of.pattern or "", template, leading[-1] if leading else None, rule or None)


def format_by_pattern(
    numobj: PhoneNumber, number_format: int, user_defined_formats: Iterable[NumberFormat]
) -> str:
    """The text in a format by a program's own layouts, of which the first counts that fits.

    >>> from phonenumber_proved import phonenumbers
    >>> own = phonenumbers.NumberFormat(pattern="(\\\\d)(\\\\d+)", format=r"\\1-\\2")
    >>> number = phonenumbers.parse("03-331 6005", "NZ")
    >>> phonenumbers.format_by_pattern(number, phonenumbers.PhoneNumberFormat.NATIONAL, [own])
    '3-3316005'
    """
    read = asked(numobj, _source(numobj))
    if read is None:
        return national_significant_number(numobj)
    own = _layouts(tuple(map(_layout, user_defined_formats)))
    return read.library_format_by(own, Mode(number_format))
