"""What `phonenumbers` tells of regions and calling codes; its lists are Python over the table."""

from __future__ import annotations

from typing import Any, Callable, Dict, Optional, Set, Tuple

from . import _regions
from .errors import UnknownRegion
from .questions import Form, RegionFacts, normalize

REGION_CODE_FOR_NON_GEO_ENTITY, UNKNOWN_REGION = _regions.NO_REGION, _regions.UNKNOWN

#: What the table has of regions and codes; each is made of it when it is asked for first.
_CONSTANTS: Dict[str, Callable[[], Any]] = {
    # The regions of each calling code, the main one first.
    "COUNTRY_CODE_TO_REGION_CODE": _regions.regions_by_code,
    # The calling codes that are no region's.
    "COUNTRY_CODES_FOR_NON_GEO_REGIONS": lambda: frozenset(
        code for code, regions in _regions.regions_by_code().items() if regions == (_regions.NO_REGION,)
    ),
    # The regions that the table has, and those that have short numbers.
    "SUPPORTED_REGIONS": lambda: frozenset(_regions.code_by_region()),
    "SUPPORTED_SHORT_REGIONS": lambda: sorted(_regions.short_regions()),
}


def constant(name: str) -> Any:
    """A constant of that package which is made of the table; the same object each time."""
    if name not in _CONSTANTS:
        raise AttributeError(f"module 'phonenumbers' has no attribute {name!r}")
    if name not in globals():
        globals()[name] = _CONSTANTS[name]()
    return globals()[name]


def __getattr__(name: str) -> Any:
    return constant(name)


def is_supported(region_code: Optional[str]) -> bool:
    """Whether the table has a region."""
    return (region_code or "") in _regions.code_by_region()


def region_codes_for_country_code(country_code: int) -> Tuple[str, ...]:
    """The regions of a calling code, the main one first."""
    return _regions.regions_by_code().get(country_code, ())


def region_code_for_country_code(country_code: int) -> str:
    """The main region of a calling code, `001` where it is no region's; `ZZ` where it has none."""
    return _regions.world().main_region(country_code) or UNKNOWN_REGION


def _facts(region_code: Optional[str]) -> Optional[RegionFacts]:
    """What is known of a region; none where there is no such region."""
    try:
        return _regions.world().about_region(region_code or "")
    except UnknownRegion:
        return None


def country_code_for_region(region_code: Optional[str]) -> int:
    """The calling code of a region; 0 where there is no such region."""
    facts = _facts(region_code)
    return 0 if facts is None else facts.code


def country_code_for_valid_region(region_code: str) -> int:
    """The calling code of a region; `ValueError` where there is no such region."""
    code = country_code_for_region(region_code)
    if not code:
        raise ValueError(f"no region's id: {region_code!a}")
    return code


def supported_calling_codes() -> Set[int]:
    """The calling codes of the table."""
    return set(_regions.regions_by_code())


def is_nanpa_country(region_code: Optional[str]) -> bool:
    """Whether a region has the calling code 1."""
    facts = _facts(region_code)
    return facts is not None and facts.is_nanpa


def is_mobile_number_portable_region(region_code: Optional[str]) -> bool:
    """Whether in a region a mobile number is kept when the carrier is changed."""
    facts = _facts(region_code)
    return facts is not None and facts.is_portable


def ndd_prefix_for_region(region_code: Optional[str], strip_non_digits: bool) -> Optional[str]:
    """The national prefix of a region; `None` where it has none. A tilde in it waits for a tone."""
    try:
        return _regions.world().national_prefix((region_code or "").upper(), strip_non_digits)
    except UnknownRegion:
        return None


def normalize_digits_only(number: str, keep_non_digits: bool = False) -> str:
    """The digits of a text, of any script, as 0 to 9, and the rest of it where that is kept."""
    if not keep_non_digits:
        return normalize(Form.DIGITS, number)
    return "".join(str(int(it)) if it.isdecimal() else it for it in number)
