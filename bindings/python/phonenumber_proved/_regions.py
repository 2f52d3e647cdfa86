"""The databases of `phonenumbers`, and what the table of the world says of regions and codes."""

from __future__ import annotations

import functools
import json
from pathlib import Path
from typing import Any, Callable, Dict, List, Tuple

from ._locks import new_lock
from .database import Database
from .short import ShortNumbers, SmsServices
from .tables import SHORT_TABLE, SMS_TABLE, table_json

#: The region of a code that is no region's, as 800, and that of no code.
NO_REGION, UNKNOWN = "001", "ZZ"

_opening = new_lock()
_opened: Dict[Any, Any] = {}


def _once(key: Any, opened: Callable[[], Any]) -> Any:
    """What is opened once for all threads."""
    if key not in _opened:
        with _opening:
            if key not in _opened:
                _opened[key] = opened()
    return _opened[key]


def world() -> Database:
    """The table of the world, opened once for all threads."""
    return _once("world", Database.load)  # type: ignore[no-any-return]


def short_numbers() -> ShortNumbers:
    """The table of short numbers, opened once for all threads."""
    return _once("short", ShortNumbers.load)  # type: ignore[no-any-return]


def sms_services() -> SmsServices:
    """The table of SMS services, opened once for all threads."""
    return _once("sms", SmsServices.load)  # type: ignore[no-any-return]


@functools.lru_cache(maxsize=None)
def records() -> Dict[Tuple[int, str], Dict[str, Any]]:
    """The records of the table, by calling code and region."""
    table = json.loads(table_json())
    return {(it["country_code"], it["id"]): it for it in table}


@functools.lru_cache(maxsize=None)
def regions_by_code() -> Dict[int, Tuple[str, ...]]:
    """The regions of each code, the main one first."""
    found: Dict[int, List[str]] = {}
    for (code, region), it in records().items():
        of_code = found.setdefault(code, [])
        of_code.insert(0 if it.get("main_country_for_code") else len(of_code), region)
    return {code: tuple(found[code]) for code in sorted(found)}


@functools.lru_cache(maxsize=None)
def code_by_region() -> Dict[str, int]:
    """The calling code of each region."""
    return {region: code for code, region in records() if region != NO_REGION}


@functools.lru_cache(maxsize=None)
def short_records() -> Dict[str, Dict[str, Any]]:
    """The records of the table of short numbers, by region; none where that isn't there."""
    return _by_region(SHORT_TABLE)


@functools.lru_cache(maxsize=None)
def sms_records() -> Dict[str, Dict[str, Any]]:
    """The records of the table of SMS services, by region; none where that isn't there."""
    return _by_region(SMS_TABLE)


def _by_region(table: str) -> Dict[str, Dict[str, Any]]:
    is_there = Path(table).is_file()
    return {it["id"]: it for it in json.loads(Path(table).read_bytes())} if is_there else {}


def short_regions() -> Tuple[str, ...]:
    """The regions of the table of short numbers."""
    return tuple(short_records())


#: The region under which `codeless` reads.
CODELESS = "AC"


def codeless() -> Database:
    """A database of one region without prefixes, whose numbers are digits of any count."""
    general = {"national_number": "(?:\\d{2,17})$", "possible_length": list(range(2, 18))}
    record = {"id": CODELESS, "country_code": 999, "general": general}
    return _once("codeless", lambda: Database(json.dumps([record])))  # type: ignore[no-any-return]
