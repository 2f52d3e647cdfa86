"""The module `phonenumbers.phonenumberutil`: what is asked of numbers, texts and regions."""

from __future__ import annotations

from typing import Any

from .. import _of_regions
from . import (
    CountryCodeSource, MatchType, NumberFormat, NumberParseException, PhoneMetadata, PhoneNumber,
    PhoneNumberFormat, PhoneNumberType, REGION_CODE_FOR_NON_GEO_ENTITY, UNKNOWN_REGION,
    ValidationResult, _extract_possible_number as _extract_possible_number,
    can_be_internationally_dialled, convert_alpha_characters_in_number,
    country_code_for_region, country_code_for_valid_region, country_mobile_token, example_number,
    example_number_for_non_geo_entity, example_number_for_type, format_by_pattern,
    format_in_original_format, format_national_number_with_carrier_code,
    format_national_number_with_preferred_carrier_code, format_number,
    format_number_for_mobile_dialing, format_out_of_country_calling_number,
    format_out_of_country_keeping_alpha_chars, invalid_example_number,
    is_alpha_number, is_mobile_number_portable_region, is_nanpa_country, is_number_geographical,
    is_number_match, is_number_type_geographical, is_possible_number, is_possible_number_for_type,
    is_possible_number_for_type_with_reason, is_possible_number_string,
    is_possible_number_with_reason, is_valid_number, is_valid_number_for_region,
    length_of_geographical_area_code, length_of_national_destination_code,
    national_significant_number, ndd_prefix_for_region, normalize_diallable_chars_only,
    normalize_digits_only, number_type, parse, region_code_for_country_code, region_code_for_number,
    region_codes_for_country_code, supported_calling_codes, supported_types_for_non_geo_entity,
    supported_types_for_region, truncate_too_long_number,
)

__all__ = [
    "COUNTRY_CODES_FOR_NON_GEO_REGIONS", "COUNTRY_CODE_TO_REGION_CODE", "CountryCodeSource",
    "MatchType", "NumberFormat", "NumberParseException", "PhoneMetadata", "PhoneNumber",
    "PhoneNumberFormat", "PhoneNumberType", "REGION_CODE_FOR_NON_GEO_ENTITY", "SUPPORTED_REGIONS",
    "UNKNOWN_REGION", "ValidationResult", "can_be_internationally_dialled",
    "convert_alpha_characters_in_number", "country_code_for_region",
    "country_code_for_valid_region", "country_mobile_token", "example_number",
    "example_number_for_non_geo_entity", "example_number_for_type", "format_by_pattern",
    "format_in_original_format", "format_national_number_with_carrier_code",
    "format_national_number_with_preferred_carrier_code", "format_number",
    "format_number_for_mobile_dialing", "format_out_of_country_calling_number",
    "format_out_of_country_keeping_alpha_chars", "invalid_example_number", "is_alpha_number", "is_mobile_number_portable_region",
    "is_nanpa_country", "is_number_geographical", "is_number_match", "is_number_type_geographical",
    "is_possible_number", "is_possible_number_for_type", "is_possible_number_for_type_with_reason",
    "is_possible_number_string", "is_possible_number_with_reason", "is_valid_number",
    "is_valid_number_for_region", "length_of_geographical_area_code",
    "length_of_national_destination_code", "national_significant_number", "ndd_prefix_for_region",
    "normalize_diallable_chars_only", "normalize_digits_only", "number_type", "parse",
    "region_code_for_country_code", "region_code_for_number", "region_codes_for_country_code",
    "supported_calling_codes", "supported_types_for_non_geo_entity", "supported_types_for_region",
    "truncate_too_long_number",
]


def __getattr__(name: str) -> Any:
    return _of_regions.constant(name)
