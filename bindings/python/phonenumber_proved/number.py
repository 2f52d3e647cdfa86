"""A phone number, and its facts."""

from __future__ import annotations

import ctypes
import enum
import functools
from typing import TYPE_CHECKING, Any, Callable, Optional, Tuple, Union

from . import _calls
from ._calls import IS_CLOSED, OK, Number, Part, Text, bytes_of, hint_of, lib, refuse, written
from .errors import Closed
from .questions import Cost, FactsAnywhere, NumberFacts, NumberMatch, match_of

if TYPE_CHECKING:
    from .database import Database
    from .layouts import Layouts
    from .short import ShortNumbers, SmsServices


class Rules(enum.IntEnum):
    """By whose rules a text is parsed and a number described."""

    LIBRARY = 0
    """Those of libphonenumber."""
    CRATE = 1
    """Those of the Rust crate `phonenumber` 0.3.10."""


class Mode(enum.IntEnum):
    """The format of a number."""

    E164 = 0
    INTERNATIONAL = 1
    NATIONAL = 2
    RFC3966 = 3


class Source(enum.IntEnum):
    """How a calling code was found."""

    PLUS = 0
    IDD = 1
    NUMBER = 2
    DEFAULT = 3


class Kind(enum.IntEnum):
    """The kind of a number."""

    FIXED_LINE = 0
    MOBILE = 1
    FIXED_LINE_OR_MOBILE = 2
    TOLL_FREE = 3
    PREMIUM_RATE = 4
    SHARED_COST = 5
    PERSONAL_NUMBER = 6
    VOIP = 7
    PAGER = 8
    UAN = 9
    EMERGENCY = 10
    VOICEMAIL = 11
    SHORT_CODE = 12
    STANDARD_RATE = 13
    CARRIER = 14
    NO_INTERNATIONAL = 15
    UNKNOWN = 16


class Possibility(enum.IntEnum):
    """What the count of a number's digits says of it."""

    POSSIBLE = 0
    """Such numbers have this many digits."""
    POSSIBLE_LOCALLY = 1
    """This many digits suffice where the number is dialled inside its area."""
    TOO_SHORT = 2
    """Each such number has more digits: while one is typed, go on."""
    TOO_LONG = 3
    """Each such number has fewer digits."""
    WRONG_LENGTH = 4
    """Some have fewer digits and some more, or no length is listed."""
    UNKNOWN_CODE = 5
    """No territory has the calling code."""


@functools.total_ordering
class PhoneNumber:
    """A phone number that a database parsed. It never changes, and asks its database.

    Kind, region, validity and formatted texts follow the rules by which it was parsed; `by` gives
    the same number under the others. Numbers are equal where calling code, national number,
    extension, carrier and source are, whatever the database and the rules; in this order they are
    ordered, the national number by its value and then by its leading zeros. A number is copied as
    itself, and pickled without its database: `on` gives it one.
    """

    __slots__ = ("_number", "_texts", "_rules", "_database")

    def __init__(
        self, number: Number, texts: bytes, rules: Rules, database: "Optional[Database]"
    ) -> None:
        """What a database makes of a text by `parse`."""
        self._number, self._texts = number, texts
        self._rules, self._database = rules, database

    @classmethod
    def from_parts(
        cls, code: int, national: str, extension: Optional[str] = None,
        carrier: Optional[str] = None, source: Source = Source.PLUS,
    ) -> "PhoneNumber":
        """The number of a calling code and of a national number's digits, with its leading zeros.

        No database is asked whether there is such a number: `on` gives it one. `ValueError` where
        a part is none: a code of 2^16 or more, a national number that isn't ASCII digits, whose
        value is 2^56 or more, or that has more than 255 leading zeros, a text without UTF-8.

        >>> from phonenumber_proved import PhoneNumber
        >>> number = PhoneNumber.from_parts(39, "0236618300", extension="7")
        >>> number.e164, number.extension
        ('+390236618300', '7')
        """
        value = int(national) if national.isascii() and national.isdecimal() else -1
        zeros = len(national) - len(str(value))
        if value < 0 or value >> 56 or zeros > 255 or not 0 <= code < 1 << 16:
            raise ValueError(f"no phone number has the parts {code!r} and {national!a}")
        try:
            return _again(value, code, Source(source), zeros, extension, carrier, Rules.LIBRARY)
        except UnicodeEncodeError:
            raise ValueError("a part of the number is not UTF-8") from None

    @property
    def code(self) -> int:
        """The calling code, as 64 for New Zealand."""
        return int(self._number.code)

    @property
    def source(self) -> Source:
        """How the calling code was found."""
        return Source(self._number.source)

    @property
    def national(self) -> str:
        """The digits of the national number, with its leading zeros."""
        return "0" * int(self._number.zeros) + str(self._number.value)

    @property
    def extension(self) -> Optional[str]:
        """What is dialled once the call is answered; it may be empty."""
        return self._part(self._number.extension)

    @property
    def carrier(self) -> Optional[str]:
        """The carrier's selection code, where one was dialled."""
        return self._part(self._number.carrier)

    @property
    def rules(self) -> Rules:
        """The rules by which it is described."""
        return self._rules

    def by(self, rules: Rules) -> "PhoneNumber":
        """The same number, described by these rules."""
        return PhoneNumber(self._number, self._texts, Rules(rules), self._database)

    def on(self, database: "Database") -> "PhoneNumber":
        """The same number, described by this database."""
        return PhoneNumber(self._number, self._texts, self._rules, database)

    def format(self, mode: Mode = Mode.E164) -> str:
        """The text in a mode; `UnknownCode` where the database lists no territory of the code."""
        number, texts, printed = ctypes.byref(self._number), self._texts, int(Mode(mode))
        return written(
            lambda *out: self._call(
                lib.phone_format, number, texts, len(texts), printed, *out
            )
        ).decode()

    @property
    def e164(self) -> str:
        """The E.164 text, whatever the code: a key for tables. It needs no database."""
        return written(lambda *out: lib.phone_key(ctypes.byref(self._number), *out)).decode()

    @property
    def kind(self) -> Kind:
        """The kind of the number."""
        told = ctypes.c_uint32()
        number, answer = ctypes.byref(self._number), ctypes.byref(told)
        status = self._call(lib.phone_kind, number, answer)
        return Kind(told.value) if status == OK else refuse(status)

    @property
    def region(self) -> Optional[str]:
        """The id of the number's region, as `NZ`; `None` where it has none."""
        number = ctypes.byref(self._number)
        region = written(lambda *out: self._call(lib.phone_region, number, *out), 8)
        return region.decode() or None

    @property
    def is_valid(self) -> bool:
        """Whether such numbers are given out."""
        told = ctypes.c_uint8()
        number, answer = ctypes.byref(self._number), ctypes.byref(told)
        status = self._call(lib.phone_is_valid, number, answer)
        return told.value == 1 if status == OK else refuse(status)

    @property
    def possibility(self) -> Possibility:
        """Whether the count of its digits is possible."""
        told = ctypes.c_uint32()
        number, answer = ctypes.byref(self._number), ctypes.byref(told)
        status = self._call(lib.phone_possibility, number, answer)
        return Possibility(told.value) if status == OK else refuse(status)

    def dialled_from(self, region: str) -> str:
        """How it is dialled from a region: `UnknownRegion` where the database has none of that id.

        >>> from phonenumber_proved import Database
        >>> with Database.load() as world:
        ...     number = world.parse("03-331 6005", "NZ")
        ...     number.dialled_from("DE"), number.dialled_from("NZ")
        ('00 64 3 331 6005', '03 331 6005')
        """
        at, number, texts = hint_of(region or ""), ctypes.byref(self._number), self._texts
        return written(
            lambda *out: self._call(
                lib.phone_dialled_from, at, len(at), number, texts, len(texts), *out
            ),
            region=region,
        ).decode()

    @property
    def about(self) -> NumberFacts:
        """What libphonenumber's further questions tell of it, whatever the rules.

        >>> from phonenumber_proved import Database
        >>> with Database.load() as world:
        ...     world.parse("(650) 253-0000", "US").about.area_length
        3
        """
        told = _calls.NumberFacts()
        number, answer = ctypes.byref(self._number), ctypes.byref(told)
        status = self._call(lib.phone_about_number, number, answer)
        if status != OK:
            refuse(status)
        is_abroad = told.is_dialled_from_abroad == 1
        lengths = int(told.area_length), int(told.destination_length)
        return NumberFacts(*lengths, told.is_geographical == 1, is_abroad)

    def is_valid_for(self, region: str) -> bool:
        """Whether it is valid for the territory of its calling code that has this id.

        The id is a region's, or `001` of a code that serves none.

        >>> from phonenumber_proved import Database
        >>> with Database.load() as world:
        ...     number = world.parse("(650) 253-0000", "US")
        ...     number.is_valid_for("US"), number.is_valid_for("CA")
        (True, False)
        """
        at, told = bytes_of(region), ctypes.c_uint8()
        number, answer = ctypes.byref(self._number), ctypes.byref(told)
        status = self._call(lib.phone_is_valid_for, at, len(at), number, answer)
        return told.value == 1 if status == OK else refuse(status, region)

    def possibility_as(self, kind: Kind) -> Possibility:
        """Whether the count of its digits is possible for a number of a kind; `UNKNOWN` is any.

        A valid number is asked by the lengths of its own region, where `library_possibility_as`
        takes those of the main region of its calling code, as libphonenumber does.

        >>> from phonenumber_proved import Database, Kind
        >>> with Database.load() as world:
        ...     number = world.parse("+1 268 406 1234")
        ...     number.possibility_as(Kind.PAGER).name, number.library_possibility_as(Kind.PAGER).name
        ('POSSIBLE', 'WRONG_LENGTH')
        """
        return self._possibility(lib.phone_own_possibility, kind)

    def library_possibility_as(self, kind: Kind) -> Possibility:
        """The same as libphonenumber has it."""
        return self._possibility(lib.phone_possibility_as, kind)

    def _possibility(self, call: Callable[..., int], kind: Kind) -> Possibility:
        told, of_kind = ctypes.c_uint32(), Kind(kind)
        number, answer = ctypes.byref(self._number), ctypes.byref(told)
        status = self._call(call, of_kind, number, answer)
        return Possibility(told.value) if status == OK else refuse(status)

    @property
    def reaches_from_abroad(self) -> bool:
        """Whether it can be dialled from abroad: where it is valid, unless its region says no.

        >>> from phonenumber_proved import Database
        >>> with Database.load() as world:
        ...     numbers = world.parse("+64 3 331 6005"), world.parse("+376 1800 1234")
        ...     [number.reaches_from_abroad for number in numbers]
        [True, False]
        """
        told = ctypes.c_uint8()
        number, answer = ctypes.byref(self._number), ctypes.byref(told)
        status = self._call(lib.phone_reaches_from_abroad, number, answer)
        return told.value == 1 if status == OK else refuse(status)

    def truncated(self) -> "Optional[PhoneNumber]":
        """A valid number as it is; another without so many digits at its end that it is valid.

        `None` where no beginning of it is valid.

        >>> from phonenumber_proved import Database
        >>> with Database.load() as world:
        ...     world.parse("+64 3 331 60059").truncated()
        <PhoneNumber +6433316005>
        """
        told, left = ctypes.c_uint8(), Number.from_buffer_copy(self._number)
        status = self._call(lib.phone_truncate, ctypes.byref(left), ctypes.byref(told))
        if status != OK:
            refuse(status)
        return PhoneNumber(left, self._texts, self._rules, self._database) if told.value else None

    def national_with(self, carrier: str, prefers_own: bool = False) -> str:
        """The national text as it is dialled with the selection code of a carrier.

        With `prefers_own`, the number's own carrier takes its place, if it has one that isn't
        empty. The digits alone where the database lacks the calling code.

        >>> from phonenumber_proved import Database
        >>> with Database.load() as world:
        ...     number = world.parse("0 31 21 2128-6979", "BR")
        ...     number.national_with("15"), number.national_with("15", True)
        ('0 15 (21) 2128-6979', '0 31 (21) 2128-6979')
        """
        number, texts, code = ctypes.byref(self._number), self._texts, bytes_of(carrier)
        own, call = int(prefers_own), lib.phone_national_with
        return written(
            lambda *out: self._call(
                call, number, texts, len(texts), code, len(code), own, *out
            )
        ).decode()

    def area(self, locale: str = "en", user: Optional[str] = None) -> str:
        """Its area in a locale; the name of its country where none is known, or its kind has none.

        For a user in another region it is the name of the number's region. Nothing where its kind
        is unknown.

        >>> from phonenumber_proved import Database
        >>> with Database.load() as world:
        ...     number = world.parse("+41 43 130 25 64")
        ...     number.area("de"), number.area("de", "DE"), number.time_zones
        ('Zürich', 'Schweiz', ('Europe/Zurich',))
        """
        from .places import atlas

        return atlas(locale).area(self, user)

    def carrier_name(self, locale: str = "en", safe: bool = False) -> str:
        """The name of the carrier to which a mobile number's range was given first.

        With `safe`, nothing where numbers are kept when the carrier is changed.
        """
        from .places import atlas

        return atlas(locale).safe_carrier(self) if safe else atlas(locale).carrier(self)

    def country_name(self, locale: str = "en") -> str:
        """The name of its country; nothing where it is valid in several, or in none."""
        from .places import atlas

        return atlas(locale).country_name(self)

    @property
    def time_zones(self) -> Tuple[str, ...]:
        """Its time zones, one at least: `Etc/Unknown` where none is known."""
        return self._zones(False)

    def _zones(self, as_it_stands: bool) -> Tuple[str, ...]:
        from .places import time_zones

        call, flag = lib.phone_time_zones, int(as_it_stands)
        return tuple(self._told_beside(time_zones(), call, flag).split("&"))

    def _told_beside(self, held: Any, call: Callable[..., int], *args: Any) -> str:
        """What a call tells of it by something else that is open."""
        number, texts = ctypes.byref(self._number), self._texts

        def told(*out: Any) -> Any:
            return held._call(
                lambda at: self._call(call, at, number, texts, len(texts), *args, *out)
            )

        return written(told).decode()

    def match(self, other: "Union[PhoneNumber, Text]") -> NumberMatch:
        """How like it and another number, or the number of a text, are.

        A number of the calling code 0 is one whose code isn't known; a text without one is parsed in
        the main region of this number's code. An end of a number has seven digits at least, and a
        text with an international prefix may match exactly: `library_match` tells what
        libphonenumber does.

        >>> from phonenumber_proved import Database
        >>> with Database.load() as world:
        ...     number = world.parse("+64 3 331 6005")
        ...     number.match("03 331 6005").name, number.match("0064 3 331 6005").name
        ...     number.match("31 6005").name, number.library_match("31 6005").name
        ('NSN_MATCH', 'EXACT_MATCH')
        ('NO_MATCH', 'SHORT_NSN_MATCH')
        """
        return self._match(lib.phone_own_match_numbers, lib.phone_own_match_text, other)

    def library_match(self, other: "Union[PhoneNumber, Text]") -> NumberMatch:
        """The same by libphonenumber's rules."""
        return self._match(lib.phone_match_numbers, lib.phone_match_text, other)

    def _match(
        self, of_numbers: Callable[..., int], of_text: Callable[..., int],
        other: "Union[PhoneNumber, Text]",
    ) -> NumberMatch:
        told = ctypes.c_uint32()
        number, texts, at = ctypes.byref(self._number), self._texts, ctypes.byref(told)
        if isinstance(other, PhoneNumber):
            two, others = ctypes.byref(other._number), other._texts
            return match_of(of_numbers(number, texts, len(texts), two, others, len(others), at), told)
        data = bytes_of(other)
        return match_of(self._call(of_text, number, texts, len(texts), data, len(data), at), told)

    def format_read(self, mode: Mode, raw: Optional[Text] = None) -> str:
        """The text in a mode, where the text that it was read from may be known.

        That stands for a number whose value is 0. One whose calling code the database lacks is
        written in E.164, in the other modes as its digits.

        >>> from phonenumber_proved import Database, Mode
        >>> with Database.load() as world:
        ...     number = world.parse("000", "IT")
        ...     number.format_read(Mode.E164, "000"), number.format_read(Mode.NATIONAL, "000")
        ('+39000', '000')
        """
        return self._written(lib.phone_format_read, int(Mode(mode)), *_given(raw))

    def mobile_text(self, region: str, with_symbols: bool = True) -> str:
        """What a mobile phone dials to reach it in a region, or with `001` anywhere.

        It is empty where the number can't be dialled there, and leaves the extension out. Each
        region of its calling code is at home for it.

        >>> from phonenumber_proved import Database, PhoneNumber
        >>> with Database.load() as world:
        ...     number = world.parse("03-331 6005", "NZ")
        ...     number.mobile_text("NZ"), number.mobile_text("US", with_symbols=False)
        ...     PhoneNumber.from_parts(1, "911").on(world).mobile_text("CA")
        ('03 331 6005', '+6433316005')
        '911'
        """
        call, flag = lib.phone_own_mobile_text, int(with_symbols)
        return self._written(call, *_given(region), flag, region=region)

    def library_mobile_text(
        self, region: str, with_symbols: bool = True, raw: Optional[Text] = None
    ) -> str:
        """The same as libphonenumber has it: only the main region of its code is at home for it.

        The text that the number was read from stands for one whose code the database lacks, or
        whose value is 0.

        >>> from phonenumber_proved import Database, PhoneNumber
        >>> with Database.load() as world:
        ...     PhoneNumber.from_parts(1, "911").on(world).library_mobile_text("CA")
        ''
        """
        return self._written(
            lib.phone_mobile_text, *_given(region), int(with_symbols), *_given(raw), region=region
        )

    def dialled_with_letters(self, region: Optional[str], raw: Text) -> str:
        """How it is dialled from a region with the letters of the text that it was read from.

        That is the end of the text whose letters and digits are the number's, so that what is
        dialled reaches it; without three letters, or such an end, as `text_from` has it.

        >>> from phonenumber_proved import Database
        >>> with Database.load() as world:
        ...     number = world.parse("0800 FLOWERS", "NZ")
        ...     [number.dialled_with_letters(at, "0800 FLOWERS") for at in ("NZ", "AT")]
        ['0800 FLOWERS', '00 64 800 FLOWERS']
        """
        at = hint_of(region)
        call = lib.phone_dialled_with_letters
        return self._written(call, at, len(at), *_given(raw), region=region)

    def text_with_letters(self, region: Optional[str], raw: Optional[Text] = None) -> str:
        """The same as libphonenumber has it: from where its first three digits stand in the text.

        So the national prefix may be lost, or written twice.

        >>> from phonenumber_proved import Database
        >>> with Database.load() as world:
        ...     world.parse("03 331 6005", "NZ").text_with_letters("NZ", "03 331 6005")
        '003 331 6005'
        """
        at = hint_of(region)
        call = lib.phone_text_with_letters
        return self._written(call, at, len(at), *_given(raw), region=region)

    def text_from(self, region: Optional[str], raw: Optional[Text] = None) -> str:
        """How it is dialled from a region as libphonenumber writes it; from none, internationally.

        >>> from phonenumber_proved import Database
        >>> with Database.load() as world:
        ...     number = world.parse("(650) 253-0000", "US")
        ...     number.text_from("CA"), number.text_from("NZ")
        ('1 (650) 253-0000', '00 1 650-253-0000')
        """
        at = hint_of(region)
        return self._written(lib.phone_text_from, at, len(at), *_given(raw), region=region)

    def original_text(self, region: Optional[str], raw: Optional[Text] = None) -> str:
        """It in the way in which the text was written that it was read from.

        No digit of that text is lost, and none is added. Without it, this is the national text. The
        region is where the number would be dialled from.

        >>> from phonenumber_proved import Database
        >>> with Database.load() as world:
        ...     world.parse("3 331-6005", "NZ").original_text("NZ", "3 331-6005")
        '3 331 6005'
        """
        at = hint_of(region)
        return self._written(lib.phone_original_text, at, len(at), *_given(raw), region=region)

    def format_by(self, layouts: "Layouts", mode: Mode = Mode.NATIONAL) -> str:
        r"""The text in a mode by a program's own layouts, the first of them that suits it.

        E.164 text isn't laid out: `library_format_by` does that too, as libphonenumber.

        >>> from phonenumber_proved import Database, Layout, Layouts
        >>> own = Layouts([Layout(r"(\d)(\d+)", "$1 $2", national_prefix_rule="($NP$FG)")])
        >>> with Database.load() as world:
        ...     world.parse("03-331 6005", "NZ").format_by(own)
        '(03) 3316005'
        """
        if Mode(mode) == Mode.E164:
            return self.e164
        return self.library_format_by(layouts, mode)

    def library_format_by(self, layouts: "Layouts", mode: Mode = Mode.NATIONAL) -> str:
        """The same as libphonenumber has it."""
        return self._written(
            lambda handle, *rest: layouts._call(
                lambda own, *more: lib.phone_format_by(handle, own, *more), *rest
            ),
            int(Mode(mode)),
        )

    def short_anywhere(self, shorts: "ShortNumbers") -> FactsAnywhere:
        """What is known of it as a short number of the regions of its calling code.

        >>> from phonenumber_proved import Database, PhoneNumber, ShortNumbers
        >>> with Database.load() as world, ShortNumbers.load() as shorts:
        ...     PhoneNumber.from_parts(64, "111").on(world).short_anywhere(shorts).cost.name
        'TOLL_FREE'
        """
        told, number = _calls.FactsAnywhere(), ctypes.byref(self._number)
        status = self._beside(shorts, lib.phone_short_anywhere, number, ctypes.byref(told))
        if status != OK:
            refuse(status)
        cost, at = ctypes.c_uint32(), Cost(told.cost)
        status = self._beside(shorts, lib.phone_known_cost, number, ctypes.byref(cost))
        if status != OK:
            refuse(status)
        is_some = told.is_possible == 1, told.is_valid == 1, Cost(cost.value)
        return FactsAnywhere(*is_some, told.is_carrier_specific == 1, at)

    def is_sms_service(self, services: "SmsServices", region: str) -> bool:
        """Whether it is an SMS service of a region, a short number that messages are sent to.

        >>> from phonenumber_proved import Database, PhoneNumber, SmsServices
        >>> with Database.load() as world, SmsServices.load() as services:
        ...     PhoneNumber.from_parts(1, "911").on(world).is_sms_service(services, "US")
        False
        """
        at, told, number = hint_of(region or ""), ctypes.c_uint8(), ctypes.byref(self._number)
        call = lib.phone_is_sms_service
        status = self._beside(services, call, at, len(at), number, ctypes.byref(told))
        if status != OK:
            refuse(status, region)
        return told.value == 1

    def _beside(self, held: Any, call: Callable[..., int], *args: Any) -> Any:
        """What a call gives on the number's database, and on what else is open."""
        return self._call(
            lambda handle, *rest: held._call(lambda own, *more: call(handle, own, *more), *rest),
            *args,
        )

    def _written(self, call: Callable[..., int], *front: Any, region: Any = None) -> str:
        """What a call writes of the number: it stands behind these arguments."""
        number, texts = ctypes.byref(self._number), self._texts
        return written(
            lambda *out: self._call(call, *front, number, texts, len(texts), *out), region=region
        ).decode()

    def _call(self, call: Callable[..., int], *args: Any) -> Any:
        """What a call on the number's database gives, by the number's rules."""
        if self._database is None:
            raise Closed(IS_CLOSED, "the number has no database: on(database) gives it one")
        return self._database._call(call, *args, rules=self._rules)

    def _part(self, part: Part) -> Optional[str]:
        if not part.is_there:
            return None
        return self._texts[part.start : part.start + part.len].decode()

    def _key(self) -> Tuple[Any, ...]:
        """What is compared: an absent text stands before all others."""
        it, extension, carrier = self._number, self.extension, self.carrier
        texts = (extension is not None, extension or "", carrier is not None, carrier or "")
        return (it.code, it.value, it.zeros, *texts, it.source)

    def __eq__(self, other: object) -> bool:
        if not isinstance(other, PhoneNumber):
            return NotImplemented
        return self._key() == other._key()

    def __lt__(self, other: object) -> bool:
        if not isinstance(other, PhoneNumber):
            return NotImplemented
        return self._key() < other._key()

    def __hash__(self) -> int:
        return hash(self._key())

    def __copy__(self) -> "PhoneNumber":
        return self

    def __deepcopy__(self, seen: object) -> "PhoneNumber":
        return self

    def __reduce__(self) -> Tuple[object, ...]:
        it = self._number
        told = (it.value, it.code, it.source, it.zeros, self.extension, self.carrier)
        return (_again, (*told, int(self._rules)))

    def __str__(self) -> str:
        return self.e164

    def __repr__(self) -> str:
        return f"<PhoneNumber {self.e164}>"


def _given(text: Optional[Text]) -> Tuple[bytes, int]:
    """A text that may be absent, which no byte stands for, and its length."""
    data = b"" if text is None else bytes_of(text)
    return data, len(data)


def _part_of(text: Optional[str], start: int) -> Part:
    """Where a text stands that begins at a place."""
    return Part(start, len((text or "").encode()), text is not None)


def _again(
    value: int, code: int, source: int, zeros: int, extension: Optional[str],
    carrier: Optional[str], rules: int,
) -> PhoneNumber:
    """A number that was pickled."""
    texts = (extension or "").encode() + (carrier or "").encode()
    first = _part_of(extension, 0)
    number = Number(value, first, _part_of(carrier, first.len), code, source, zeros)
    return PhoneNumber(number, texts, Rules(rules), None)
