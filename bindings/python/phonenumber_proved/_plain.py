"""The data of `phonenumbers`: a number whose fields a program sets, constants, and an error."""

from __future__ import annotations

from typing import Any, Optional, Tuple

from .number import PhoneNumber as _Read


class _Names:
    """Constants that have numbers."""

    @classmethod
    def to_string(cls, value: int) -> str:
        """The name of a number."""
        names = [name for name, it in vars(cls).items() if name.isupper() and it == value]
        return names[0] if names else f"INVALID ({value})"

    @classmethod
    def values(cls) -> Tuple[int, ...]:
        """All of the numbers."""
        return tuple(it for name, it in vars(cls).items() if name.isupper())


class PhoneNumberFormat(_Names):
    """How a number is formatted."""

    E164 = 0
    INTERNATIONAL = 1
    NATIONAL = 2
    RFC3966 = 3


class PhoneNumberType(_Names):
    """The kind of a number."""

    FIXED_LINE = 0
    MOBILE = 1
    FIXED_LINE_OR_MOBILE = 2
    TOLL_FREE = 3
    PREMIUM_RATE = 4
    SHARED_COST = 5
    VOIP = 6
    PERSONAL_NUMBER = 7
    PAGER = 8
    UAN = 9
    VOICEMAIL = 10
    UNKNOWN = 99


class CountryCodeSource(_Names):
    """How a calling code was found."""

    UNSPECIFIED = 0
    FROM_NUMBER_WITH_PLUS_SIGN = 1
    FROM_NUMBER_WITH_IDD = 5
    FROM_NUMBER_WITHOUT_PLUS_SIGN = 10
    FROM_DEFAULT_COUNTRY = 20


class ValidationResult(_Names):
    """Whether the count of a number's digits is possible."""

    IS_POSSIBLE = 0
    INVALID_COUNTRY_CODE = 1
    TOO_SHORT = 2
    TOO_LONG = 3
    IS_POSSIBLE_LOCAL_ONLY = 4
    INVALID_LENGTH = 5


class MatchType(_Names):
    """How like two numbers are."""

    NOT_A_NUMBER = 0
    NO_MATCH = 1
    SHORT_NSN_MATCH = 2
    NSN_MATCH = 3
    EXACT_MATCH = 4


class ShortNumberCost(_Names):
    """What a call of a short number costs."""

    TOLL_FREE = 0
    STANDARD_RATE = 1
    PREMIUM_RATE = 2
    UNKNOWN_COST = 3


class NumberParseException(Exception):
    """A text is no phone number; `error_type` says why."""

    INVALID_COUNTRY_CODE = 0
    NOT_A_NUMBER = 1
    TOO_SHORT_AFTER_IDD = 2
    TOO_SHORT_NSN = 3
    TOO_LONG = 4

    def __init__(self, error_type: int, msg: str) -> None:
        super().__init__(msg)
        self.error_type, self._msg = error_type, msg

    def __reduce__(self) -> Tuple[Any, ...]:
        return type(self), (self.error_type, self._msg)

    def __str__(self) -> str:
        return f"({self.error_type}) {self._msg}"


#: The fields of a number, each with its words.
_FIELDS = {
    "country_code": "Country Code",
    "national_number": "National Number",
    "italian_leading_zero": "Leading Zero(s)",
    "number_of_leading_zeros": "Number of leading zeros",
    "extension": "Extension",
    "country_code_source": "Country Code Source",
    "preferred_domestic_carrier_code": "Preferred Domestic Carrier Code",
}


#: The fields of a number, in the order of its arguments.
_NAMES = (
    "country_code", "national_number", "extension", "italian_leading_zero",
    "number_of_leading_zeros", "raw_input", "country_code_source",
    "preferred_domestic_carrier_code",
)


class PhoneNumber:
    """A phone number: fields that a program sets at will. A field that isn't set is `None`.

    `national_number` has no leading zeros: `italian_leading_zero` says that there are any, and
    `number_of_leading_zeros` how many where it isn't one.
    """

    def __init__(
        self,
        country_code: Optional[int] = None,
        national_number: Optional[int] = None,
        extension: Optional[str] = None,
        italian_leading_zero: Optional[bool] = None,
        number_of_leading_zeros: Optional[int] = None,
        raw_input: Optional[str] = None,
        country_code_source: int = CountryCodeSource.UNSPECIFIED,
        preferred_domestic_carrier_code: Optional[str] = None,
    ) -> None:
        self.country_code = None if country_code is None else int(country_code)
        self.national_number = None if national_number is None else int(national_number)
        self.extension = extension
        self.italian_leading_zero = italian_leading_zero
        self.number_of_leading_zeros = number_of_leading_zeros
        self.raw_input = raw_input
        self.country_code_source = country_code_source or CountryCodeSource.UNSPECIFIED
        self.preferred_domestic_carrier_code = preferred_domestic_carrier_code

    def clear(self) -> None:
        """Takes all fields away."""
        PhoneNumber.__init__(self)

    def merge_from(self, other: "PhoneNumber") -> None:
        """Takes over the fields that the other has; those of a class made of this one aren't its."""
        unset = PhoneNumber()
        for name in _NAMES:
            value = getattr(other, name)
            if value != getattr(unset, name):
                setattr(self, name, value)

    def _key(self) -> Tuple[Any, ...]:
        """What is compared, the eight fields: an absent truth is a false one."""
        zero = "italian_leading_zero"
        return tuple(bool(self.italian_leading_zero) if it == zero else getattr(self, it) for it in _NAMES)

    def __eq__(self, other: object) -> bool:
        return isinstance(other, PhoneNumber) and self._key() == other._key()

    __hash__ = None  # type: ignore[assignment]

    def __str__(self) -> str:
        unset, told = vars(PhoneNumber()), {it: getattr(self, it) for it in _NAMES}
        always = ("country_code", "national_number")
        return " ".join(
            f"{words}: {told[name]}"
            for name, words in _FIELDS.items()
            if name in always or told[name] != unset[name]
        )

    def __repr__(self) -> str:
        told = {it: getattr(self, it) for it in _NAMES if it != "raw_input"}
        fields = ", ".join(f"{name}={it!r}" for name, it in told.items())
        return f"{type(self).__name__}({fields})"


def leading_zeros(numobj: PhoneNumber) -> int:
    """How many leading zeros a number has."""
    zeros = numobj.number_of_leading_zeros
    return 0 if not numobj.italian_leading_zero else 1 if zeros is None else max(zeros, 0)


def national_significant_number(numobj: PhoneNumber) -> str:
    """The digits of the national number, with its leading zeros."""
    return "0" * leading_zeros(numobj) + str(numobj.national_number)


def plain_number(read: _Read, numobj: Optional[PhoneNumber] = None) -> PhoneNumber:
    """A number that was read, in the fields of another or of a new one."""
    it = PhoneNumber() if numobj is None else numobj
    it.country_code, it.national_number = read.code, int(read.national)
    zeros = len(read.national) - len(str(it.national_number))
    if zeros:
        it.italian_leading_zero = True
    if zeros > 1:
        it.number_of_leading_zeros = zeros
    if read.extension:
        it.extension = read.extension
    return it


class Fixed:
    """What doesn't change, unless its `_mutable` is set, as there."""

    _mutable = False

    def _check(self) -> None:
        if not self._mutable:
            raise TypeError(f"a {type(self).__name__} doesn't change")

    def __setattr__(self, name: str, value: object) -> None:
        if name != "_mutable":
            self._check()
        object.__setattr__(self, name, value)

    def __delattr__(self, name: str) -> None:
        self._check()
        object.__delattr__(self, name)


class FrozenPhoneNumber(Fixed, PhoneNumber):
    """A phone number that never changes, and may be a key."""

    def __init__(self, *args: Any, **kwargs: Any) -> None:
        is_copied = len(args) == 1 and not kwargs and isinstance(args[0], PhoneNumber)
        plain = args[0] if is_copied else PhoneNumber(*args, **kwargs)
        self.__dict__.update({name: getattr(plain, name) for name in _NAMES})

    def clear(self) -> None:
        """Raises: it never changes."""
        self._check()
        super().clear()

    def merge_from(self, other: PhoneNumber) -> None:
        """Raises: it never changes."""
        self._check()
        super().merge_from(other)

    def __hash__(self) -> int:  # type: ignore[override]
        return hash(self._key())
