"""Layouts of a program's own, by which numbers are formatted."""

from __future__ import annotations

import json
from typing import Any, Dict, Iterable, NamedTuple, Optional

from .database import Records


class Layout(NamedTuple):
    """A layout of national digits."""

    pattern: str
    """The pattern that parts all of the digits into groups."""
    format: str
    """The template that lays the groups out, with `$1` for the first."""
    leading_digits: Optional[str] = None
    """The pattern of the digits in front for which it is meant."""
    national_prefix_rule: Optional[str] = None
    """How national text begins: `$NP` is the national prefix, `$FG` the first group."""


class Layouts(Records):
    """Layouts, of which the first counts that suits a number: `PhoneNumber.format_by`.

    Threads use them at once, as a database. `BadDatabase` where a pattern is none.
    """

    def __init__(self, layouts: Iterable[Layout]) -> None:
        """Opens these layouts."""
        general = {"national_number": "1"}
        formats = [_record(it) for it in layouts]
        record = {"id": "001", "country_code": 1, "general": general, "formats": formats}
        super().__init__(json.dumps([record]))


def _record(layout: Layout) -> Dict[str, Any]:
    """A layout as a record of a table."""
    record: Dict[str, Any] = {"pattern": layout.pattern, "format": layout.format}
    if layout.leading_digits is not None:
        record["leading_digits"] = [layout.leading_digits]
    if layout.national_prefix_rule is not None:
        record["national_prefix_formatting_rule"] = layout.national_prefix_rule
    return record
