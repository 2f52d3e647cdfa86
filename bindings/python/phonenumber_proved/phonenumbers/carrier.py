"""The module `phonenumbers.carrier`: to which carrier a number's range was given."""

from __future__ import annotations

from typing import Optional

from .._asked_places import in_locale
from . import PhoneNumber

__all__ = ["name_for_number", "name_for_valid_number", "safe_display_name"]


def name_for_valid_number(
    numobj: PhoneNumber, lang: str, script: Optional[str] = None, region: Optional[str] = None
) -> str:
    """The carrier of a number, whatever its kind."""
    return in_locale(
        numobj, lang, script, region, lambda atlas, it: atlas.carrier(it, as_it_stands=True)
    )


def name_for_number(
    numobj: PhoneNumber, lang: str, script: Optional[str] = None, region: Optional[str] = None
) -> str:
    """The carrier of a number; nothing where its kind has no mobile carrier."""
    return in_locale(numobj, lang, script, region, lambda atlas, it: atlas.carrier(it))


def safe_display_name(
    numobj: PhoneNumber, lang: str, script: Optional[str] = None, region: Optional[str] = None
) -> str:
    """The same; nothing where a mobile number is kept when the carrier is changed."""
    return in_locale(numobj, lang, script, region, lambda atlas, it: atlas.safe_carrier(it))
