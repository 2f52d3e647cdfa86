"""The module `phonenumbers.geocoder`: where a number is."""

from __future__ import annotations

from typing import Optional

from .._asked_places import in_locale
from . import PhoneNumber

__all__ = [
    "country_name_for_number", "description_for_number", "description_for_valid_number",
]


def country_name_for_number(
    numobj: PhoneNumber, lang: str, script: Optional[str] = None, region: Optional[str] = None
) -> str:
    """The name of a number's country; nothing where it is valid in several, or in none."""
    return in_locale(numobj, lang, script, region, lambda atlas, it: atlas.country_name(it))


def description_for_valid_number(
    numobj: PhoneNumber, lang: str, script: Optional[str] = None, region: Optional[str] = None
) -> str:
    """The area of a number, whatever its kind; for a user of another region that of the number."""
    return in_locale(
        numobj, lang, script, region, lambda atlas, it: atlas.area(it, region, as_it_stands=True)
    )


def description_for_number(
    numobj: PhoneNumber, lang: str, script: Optional[str] = None, region: Optional[str] = None
) -> str:
    """The same by its kind: nothing where that is unknown, its country where it is of no place."""
    return in_locale(numobj, lang, script, region, lambda atlas, it: atlas.area(it, region))
