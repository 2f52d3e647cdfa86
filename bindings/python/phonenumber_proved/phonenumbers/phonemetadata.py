"""The module `phonenumbers.phonemetadata`: the records of the table."""

from __future__ import annotations

from . import NumberFormat, PhoneMetadata, PhoneNumberDesc, REGION_CODE_FOR_NON_GEO_ENTITY

__all__ = [
    "NumberFormat", "PhoneMetadata", "PhoneNumberDesc", "REGION_CODE_FOR_NON_GEO_ENTITY",
]
