"""The module `phonenumbers.phonenumbermatcher`: the numbers in a text."""

from __future__ import annotations

from . import Leniency, PhoneNumberMatch, PhoneNumberMatcher

__all__ = [
    "Leniency", "PhoneNumberMatch", "PhoneNumberMatcher",
]
