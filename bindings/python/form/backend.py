"""What the form asks: the one place that knows how numbers are read."""

from __future__ import annotations

import unicodedata
from typing import List, NamedTuple, Optional, Tuple, Union

from phonenumber_proved import TABLE, Database, Kind, Mode, NoNumber, PhoneNumber

#: What is told of a valid number: names with their texts.
Facts = List[Tuple[str, str]]

#: The categories of characters that stand between keys and are shown otherwise or dropped.
_MARKS = {"Zs", "Pd", "Ps", "Pe", "Cf", "Cc"}


class Told(NamedTuple):
    """What is told of a text: facts of a valid number, else in words what is lacking."""

    facts: Optional[Facts]
    words: str


class Choice(NamedTuple):
    """A region that one can choose: its id, its calling code, and an example of how a number is written there."""

    region: str
    code: int
    example: str


class Backend:
    """The form's answers, by the metadata of all regions. A region is an id, as `NZ`, or `None`."""

    def __init__(self, table: Optional[str] = TABLE) -> None:
        self._world = Database.load(table)
        #: The ids of the regions that one can choose.
        self.regions: List[str] = self._world.regions()
        #: The same, with what is shown beside them.
        self.choices: List[Choice] = [self._choice(it) for it in self.regions]

    def _choice(self, region: str) -> Choice:
        found = (self._world.example(region, it) for it in (Kind.MOBILE, Kind.FIXED_LINE))
        example = next((it.format(Mode.NATIONAL) for it in found if it is not None), "")
        return Choice(region, self._world.about_region(region).code, example)

    def typed(self, region: Optional[str], text: str, caret: int) -> Optional[Tuple[str, int]]:
        """What the field shows of a text that is typed, and where the caret stands in it.

        The caret stands after as many characters of the text. `None` where the text is left as it is:
        where it has more than digits, plus signs and marks, as the letters of an extension, and where
        one space was typed after all, as before such letters.
        """
        if not all(_is_key(c) or _is_mark(c) for c in text):
            return None
        shown = self._world.typed(text, region)
        if shown and text == shown + " ":
            return None
        before, all_keys = _keys(self._world.typed(text[:caret], region)), _keys(shown)
        if before >= all_keys:
            return shown, len(shown)
        return shown, self._world.caret(text, before, region)

    def pasted(self, region: Optional[str], text: str) -> Optional[str]:
        """A text that is pasted, as its number is printed; `None` where it is no valid number."""
        number = self._read(region, text)
        if isinstance(number, str):
            return None
        return number.format(Mode.NATIONAL if number.region == region else Mode.INTERNATIONAL)

    def told(self, region: Optional[str], text: str) -> Told:
        """What is told of a text under a region."""
        number = self._read(region, text)
        if isinstance(number, str):
            return Told(None, number)
        facts = [
            ("Number", number.e164),
            ("Printed", number.format(Mode.INTERNATIONAL)),
            ("Kind", number.kind.name.lower().replace("_", " ")),
            ("Region", number.region or "none"),
        ]
        return Told(facts, "")

    def _read(self, region: Optional[str], text: str) -> Union[PhoneNumber, str]:
        """The valid number that a text is, or in words what is lacking."""
        try:
            number = self._world.parse(text, region)
        except NoNumber as refusal:
            return _lacking(refusal, text)
        return number if number.is_valid else self._invalid(number, region)

    def _invalid(self, number: PhoneNumber, region: Optional[str]) -> str:
        """Words of a number that isn't valid: too long where it begins with a valid one."""
        for end in range(len(number.national) - 1, 1, -1):
            try:
                front = self._world.parse(f"+{number.code}{number.national[:end]}", region)
            except NoNumber:
                break
            if front.is_valid:
                return f"the number is too long: {front.format(Mode.INTERNATIONAL)} is one"
        return "the number is too short, or no such number is given out"


def _lacking(refusal: NoNumber, text: str) -> str:
    """The words of a refusal; where only keys were typed, and few, that they are too few."""
    if not text.strip():
        return ""
    few = len(text) < 20 and all(_is_key(c) or _is_mark(c) for c in text)
    if refusal.status in (3, 4) or refusal.status == 1 and few:
        return "the number is too short"
    if refusal.status == 2 and not text.lstrip().startswith(("+", "\uff0b")):
        return "a region is wanted, or a country code after a plus sign"
    return refusal.words


def _is_key(c: str) -> bool:
    return c in "+\uff0b" or unicodedata.category(c) == "Nd"


def _is_mark(c: str) -> bool:
    return c in "./" or unicodedata.category(c) in _MARKS


def _keys(shown: str) -> int:
    return sum(c == "+" or c.isdigit() for c in shown)
