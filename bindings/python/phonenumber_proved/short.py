"""Short numbers, which are dialled within a region alone."""

from __future__ import annotations

import ctypes
from typing import Any, List, NamedTuple, Optional

from ._calls import COST_ANY, NO_EXAMPLE, OK, Facts, Text, bytes_of, hint_of, lib, refuse, written
from .database import Records
from .held import PathText
from .questions import Cost
from .tables import SHORT_TABLE, SMS_TABLE


class ShortFacts(NamedTuple):
    """What is known of a text as a short number of a region."""

    is_possible: bool
    """The count of its digits is possible."""
    is_valid: bool
    """It is a short number of the region."""
    cost: Cost
    """What a call costs."""
    is_carrier_specific: bool
    """Only some carriers connect it."""
    is_emergency: bool
    """It is an emergency number."""
    reaches_emergency: bool
    """It reaches emergency services."""


class ShortNumbers(Records):
    """Metadata of short numbers.

    >>> from phonenumber_proved import ShortNumbers
    >>> with ShortNumbers.load() as table:
    ...     facts = table.short("NZ", "111")
    ...     facts.is_valid, facts.cost.name, facts.is_emergency
    (True, 'TOLL_FREE', True)
    """

    @classmethod
    def load(cls, path: PathText = SHORT_TABLE) -> "ShortNumbers":
        """Opens the metadata that a file has; without a path, those of all regions."""
        return super().load(path)

    def short(self, region: str, text: Text) -> ShortFacts:
        """What is known of a text as a short number of a region; `UnknownRegion` where it is none."""
        data, at, facts = bytes_of(text), hint_of(region or ""), Facts()
        told = ctypes.byref(facts)
        status = self._call(lib.phone_short, at, len(at), data, len(data), told)
        if status != OK:
            refuse(status, region)
        return ShortFacts(
            facts.is_possible == 1, facts.is_valid == 1, Cost(facts.cost),
            facts.is_carrier_specific == 1, facts.is_emergency == 1, facts.reaches_emergency == 1,
        )

    def example(self, region: str, cost: Optional[Cost] = None) -> Optional[str]:
        """The example of a region's short numbers, of those of a cost or of all; perhaps none.

        >>> from phonenumber_proved import Cost, ShortNumbers
        >>> with ShortNumbers.load() as table:
        ...     table.example("FR"), table.example("FR", Cost.UNKNOWN)
        ('15', None)
        """
        at, wanted = hint_of(region or ""), COST_ANY if cost is None else int(Cost(cost))
        is_there: List[bool] = []

        def call(*out: Any) -> int:
            status: int = self._call(lib.phone_short_example, at, len(at), wanted, *out)
            is_there.append(status != NO_EXAMPLE)
            return status if is_there[-1] else OK

        text = written(call, 32, region).decode()
        return text if is_there[-1] else None


class SmsServices(Records):
    """Metadata of SMS services: short numbers that messages are sent to.

    >>> from phonenumber_proved import Database, PhoneNumber, SmsServices
    >>> with Database.load() as world, SmsServices.load() as services:
    ...     PhoneNumber.from_parts(1, "22000").on(world).is_sms_service(services, "US")
    True
    """

    @classmethod
    def load(cls, path: PathText = SMS_TABLE) -> "SmsServices":
        """Opens the metadata of a file; without a path, those of all regions."""
        return super().load(path)
