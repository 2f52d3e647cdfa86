"""The short numbers of `phonenumbers`."""

from __future__ import annotations

from typing import Optional, Union

from . import _regions
from ._of_regions import region_codes_for_country_code
from ._plain import PhoneNumber, ShortNumberCost, national_significant_number
from ._questions import asked
from .errors import UnknownRegion
from .questions import Cost, FactsAnywhere
from .short import ShortFacts


def _short(number: Union[PhoneNumber, str], region: Optional[str]) -> Optional[ShortFacts]:
    """What is known of a short number of a region; none where it isn't dialled there."""
    if isinstance(number, PhoneNumber):
        if region not in region_codes_for_country_code(number.country_code or 0):
            return None
        number = national_significant_number(number)
    try:
        return _regions.short_numbers().short(region or "", number)
    except UnknownRegion:
        return None


def is_possible_short_number_for_region(short_numobj: PhoneNumber, region_dialing_from: str) -> bool:
    """Whether the count of a short number's digits is possible in a region."""
    facts = _short(short_numobj, region_dialing_from)
    return facts is not None and facts.is_possible


def is_valid_short_number_for_region(short_numobj: PhoneNumber, region_dialing_from: str) -> bool:
    """Whether a number is a short number of a region."""
    facts = _short(short_numobj, region_dialing_from)
    return facts is not None and facts.is_valid


def expected_cost_for_region(short_numobj: PhoneNumber, region_dialing_from: str) -> int:
    """What a call of a short number costs in a region, of `ShortNumberCost`."""
    facts = _short(short_numobj, region_dialing_from)
    return ShortNumberCost.UNKNOWN_COST if facts is None else int(facts.cost)


def is_carrier_specific_for_region(numobj: PhoneNumber, region_dialing_from: str) -> bool:
    """Whether only some carriers of a region connect a short number."""
    facts = _short(numobj, region_dialing_from)
    return facts is not None and facts.is_carrier_specific


def _anywhere(numobj: PhoneNumber) -> Optional[FactsAnywhere]:
    """What is known of a number as a short number of the regions of its calling code."""
    read = asked(numobj)
    return None if read is None else read.short_anywhere(_regions.short_numbers())


def is_possible_short_number(numobj: PhoneNumber) -> bool:
    """Whether the count of a short number's digits is possible in a region of its calling code."""
    facts = _anywhere(numobj)
    return facts is not None and facts.is_possible


def is_valid_short_number(numobj: PhoneNumber) -> bool:
    """Whether a number is a short number of a region of its calling code."""
    facts = _anywhere(numobj)
    return facts is not None and facts.is_valid


def expected_cost(numobj: PhoneNumber) -> int:
    """The highest cost of a call of a short number in the regions of its calling code.

    An unknown one stands between premium and standard rate.
    """
    facts = _anywhere(numobj)
    return ShortNumberCost.UNKNOWN_COST if facts is None else int(facts.library_cost)


def is_carrier_specific(numobj: PhoneNumber) -> bool:
    """Whether only some carriers connect a short number, in the first region that has it."""
    facts = _anywhere(numobj)
    return facts is not None and facts.is_carrier_specific


def is_sms_service_for_region(numobj: PhoneNumber, region_dialing_from: Optional[str]) -> bool:
    """Whether a number is an SMS service of a region, a short number that messages are sent to."""
    read = asked(numobj)
    try:
        services, region = _regions.sms_services(), region_dialing_from or ""
        return read is not None and read.is_sms_service(services, region)
    except UnknownRegion:
        return False


def _example(region_code: Optional[str], cost: Optional[Cost]) -> str:
    try:
        return _regions.short_numbers().example(region_code or "", cost) or ""
    except UnknownRegion:
        return ""


def example_short_number(region_code: Optional[str]) -> str:
    """An example of the short numbers of a region; empty without one."""
    return _example(region_code, None)


def example_short_number_for_cost(region_code: Optional[str], cost: int) -> str:
    """The same of those of a cost, of `ShortNumberCost`."""
    return _example(region_code, Cost(cost))


def is_emergency_number(number: str, region_code: str) -> bool:
    """Whether a text is an emergency number of a region."""
    facts = _short(number, region_code)
    return facts is not None and facts.is_emergency


def connects_to_emergency_number(number: str, region_code: str) -> bool:
    """Whether a text reaches the emergency services of a region."""
    facts = _short(number, region_code)
    return facts is not None and facts.reaches_emergency
