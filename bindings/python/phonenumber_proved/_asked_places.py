"""What `phonenumbers` tells of where a number is."""

from __future__ import annotations

from typing import Callable, Optional, Tuple

from ._plain import PhoneNumber
from ._questions import asked
from .number import PhoneNumber as _Read
from .places import UNKNOWN_ZONE, Atlas, atlas


def in_locale(
    numobj: PhoneNumber, lang: str, script: Optional[str], region: Optional[str],
    told: Callable[[Atlas, _Read], str],
) -> str:
    """What the atlas of a locale tells of a number; nothing of one that the library can't take."""
    read = asked(numobj)
    locale = "_".join(it for it in (lang, script, region) if it)
    return "" if read is None else told(atlas(locale), read)


def zones_of(numobj: PhoneNumber, as_it_stands: bool) -> Tuple[str, ...]:
    """The time zones of a number."""
    read = asked(numobj)
    return (UNKNOWN_ZONE,) if read is None else read._zones(as_it_stands)
