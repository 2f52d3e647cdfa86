"""The module `phonenumbers.phonenumber`: a number and its fields."""

from __future__ import annotations

from . import CountryCodeSource, FrozenPhoneNumber, PhoneNumber

__all__ = [
    "CountryCodeSource", "FrozenPhoneNumber", "PhoneNumber",
]
