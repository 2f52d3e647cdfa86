"""The module `phonenumbers.timezone`: the time zones of a number."""

from __future__ import annotations

from typing import Tuple

from .._asked_places import zones_of
from ..places import UNKNOWN_ZONE
from . import PhoneNumber

__all__ = ["UNKNOWN_TIMEZONE", "time_zones_for_geographical_number", "time_zones_for_number"]

#: The zone of numbers of which none is known.
UNKNOWN_TIMEZONE = UNKNOWN_ZONE


def time_zones_for_geographical_number(numobj: PhoneNumber) -> Tuple[str, ...]:
    """The time zones of a number's digits, whatever its kind."""
    return zones_of(numobj, as_it_stands=True)


def time_zones_for_number(numobj: PhoneNumber) -> Tuple[str, ...]:
    """The time zones of a number; those of its calling code where its kind is of no place."""
    return zones_of(numobj, as_it_stands=False)
