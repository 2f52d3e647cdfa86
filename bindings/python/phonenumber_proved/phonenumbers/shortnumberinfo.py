"""The module `phonenumbers.shortnumberinfo`: short numbers."""

from __future__ import annotations

from typing import Any

from .. import _of_regions
from . import (  # noqa: F401
    ShortNumberCost, _example_short_number, _example_short_number_for_cost,
    connects_to_emergency_number, expected_cost, expected_cost_for_region, is_carrier_specific,
    is_carrier_specific_for_region, is_emergency_number, is_possible_short_number,
    is_possible_short_number_for_region, is_sms_service_for_region, is_valid_short_number,
    is_valid_short_number_for_region,
)

__all__ = [
    "SUPPORTED_SHORT_REGIONS", "ShortNumberCost", "connects_to_emergency_number", "expected_cost",
    "expected_cost_for_region", "is_carrier_specific", "is_carrier_specific_for_region",
    "is_emergency_number", "is_possible_short_number", "is_possible_short_number_for_region",
    "is_sms_service_for_region", "is_valid_short_number", "is_valid_short_number_for_region",
]


def __getattr__(name: str) -> Any:
    return _of_regions.constant(name)
