"""The records of the tables, as the classes of `phonenumbers` have them: data alone."""

from __future__ import annotations

import functools
from typing import Any, Callable, Dict, Iterator, List, Mapping, Optional, Tuple

from . import _regions
from ._locks import new_lock
from ._plain import Fixed


class _Record(Fixed):
    """Named values, which are compared by what they are told as, and don't change."""

    def _values(self, **values: Any) -> None:
        self.__dict__.update(values)

    def __eq__(self, other: object) -> bool:
        return isinstance(other, type(self)) and repr(self) == repr(other)

    __hash__ = None  # type: ignore[assignment]

    def __repr__(self) -> str:
        values = vars(self).items()
        told = ", ".join(f"{name}={it!r}" for name, it in values if self._is_told(name, it))
        return f"{type(self).__name__}({told})"

    def _is_told(self, name: str, value: Any) -> bool:
        return name != "_mutable" and value not in (None, [], ())

    def merge_from(self, other: Any) -> None:
        """Takes over the values that the other has."""
        self._check()
        self._values(**{name: it for name, it in vars(other).items() if self._is_told(name, it)})


class NumberFormat(_Record):
    """A layout: the digits that it fits, and how they are formatted."""

    def __init__(
        self, pattern: Optional[str] = None, format: Optional[str] = None,
        leading_digits_pattern: Optional[List[str]] = None,
        national_prefix_formatting_rule: Optional[str] = None,
        national_prefix_optional_when_formatting: Optional[bool] = None,
        domestic_carrier_code_formatting_rule: Optional[str] = None,
    ) -> None:
        optional = national_prefix_optional_when_formatting
        self._values(
            pattern=pattern, format=format, leading_digits_pattern=list(leading_digits_pattern or []),
            national_prefix_formatting_rule=national_prefix_formatting_rule,
            national_prefix_optional_when_formatting=None if optional is None else bool(optional),
            domestic_carrier_code_formatting_rule=domestic_carrier_code_formatting_rule,
        )

    def _is_told(self, name: str, value: Any) -> bool:
        return name in ("pattern", "format") or super()._is_told(name, value)

    def merge_from(self, other: Any) -> None:
        """Takes over the values that the other has, and its leading digits behind those here."""
        leading = [*self.leading_digits_pattern, *other.leading_digits_pattern]
        super().merge_from(other)
        self._values(leading_digits_pattern=leading)


class PhoneNumberDesc(_Record):
    """The numbers of a kind: their pattern, an example, how many digits they may have."""

    def __init__(
        self, national_number_pattern: Optional[str] = None, example_number: Optional[str] = None,
        possible_length: Optional[Tuple[int, ...]] = None,
        possible_length_local_only: Optional[Tuple[int, ...]] = None,
    ) -> None:
        self._values(
            national_number_pattern=national_number_pattern, example_number=example_number,
            possible_length=tuple(possible_length or ()),
            possible_length_local_only=tuple(possible_length_local_only or ()),
        )

    def merge_from(self, other: Any) -> None:
        """Takes over the pattern and the example that the other has."""
        super().merge_from(PhoneNumberDesc(other.national_number_pattern, other.example_number))


#: The names of the kinds, and those of the table's records.
_KINDS = {
    "general_desc": "general", "fixed_line": "fixed_line", "mobile": "mobile",
    "toll_free": "toll_free", "premium_rate": "premium_rate", "shared_cost": "shared_cost",
    "personal_number": "personal_number", "voip": "voip", "pager": "pager", "uan": "uan",
    "emergency": "emergency", "voicemail": "voicemail", "short_code": "short_code",
    "standard_rate": "standard_rate", "carrier_specific": "carrier", "sms_services": "sms",
    "no_international_dialling": "no_international",
}

#: The names of the texts, and those of the table's records.
_TEXTS = {
    "preferred_international_prefix": "preferred_international_prefix",
    "national_prefix": "national_prefix", "preferred_extn_prefix": "preferred_extension_prefix",
    "national_prefix_for_parsing": "national_prefix_for_parsing",
    "national_prefix_transform_rule": "national_prefix_transform_rule",
}

#: What is told of a territory even where it is none, and what isn't told where it is false.
_ALWAYS = ("id", "country_code", "international_prefix", "general_desc")
_TRUTHS = (
    "main_country_for_code", "leading_zero_possible", "mobile_number_portable_region", "short_data",
)
_NAMES = (
    "id", "country_code", "international_prefix", *_KINDS, *_TEXTS, "number_format",
    "intl_number_format", _TRUTHS[0], "leading_digits", *_TRUTHS[1:],
)


class _Shelf:
    """Records by region or calling code: those that are registered, and those of a table."""

    def __init__(
        self, made: Callable[[Any], Optional[PhoneMetadata]], keys: Callable[[], List[Any]]
    ) -> None:
        self.made, self.loaders, self.lock = made, _Available(keys), new_lock()
        self.records: Dict[Any, PhoneMetadata] = {}

    def get(self, key: Any, default: Optional[PhoneMetadata]) -> Optional[PhoneMetadata]:
        """The record of a key; what loads it is called first, once."""
        with self.lock:
            loader = self.loaders.given.pop(key, None)
            if loader is not None:
                loader(key)
            if key not in self.records:
                made = self.made(key)
                if made is None:
                    return default
                self.records[key] = made
            return self.records[key]

    def register(self, key: Any, record: PhoneMetadata) -> None:
        """Puts a record here; an `Exception` where another one is here."""
        with self.lock:
            if self.get(key, record) != record:
                raise Exception(f"another record is registered: {key}")
            self.records.setdefault(key, record)


class _Available(Mapping[Any, Any]):
    """What loads a record, by region or code; `None` of those of a table."""

    def __init__(self, keys: Callable[[], List[Any]]) -> None:
        self._keys = keys
        self.given: Dict[Any, Callable[[Any], Any]] = {}

    def __getitem__(self, key: Any) -> Any:
        if key not in self.given and key not in self._keys():
            raise KeyError(key)
        return self.given.get(key)

    def __iter__(self) -> Iterator[Any]:
        return iter(dict.fromkeys([*self._keys(), *self.given]))

    def __len__(self) -> int:
        return len(list(iter(self)))


class PhoneMetadata(_Record):
    """What the tables have of a territory. Each is made of them when it is asked for.

    A record that is made is registered, unless `register` is false: the calls of this class find
    it. All other calls answer by the tables alone, whatever is registered or changed here.
    """

    def __init__(
        self, id: str, country_code: Optional[int] = None,
        international_prefix: Optional[str] = None, register: bool = True, **values: Any,
    ) -> None:
        values.update(id=id, country_code=country_code, international_prefix=international_prefix)
        unknown = set(values) - set(_NAMES)
        if unknown:
            raise TypeError(f"no value of a territory: {', '.join(sorted(unknown))}")
        told = {name: values.get(name) for name in _NAMES}
        told.update({name: list(told[name] or ()) for name in ("number_format", "intl_number_format")})
        told.update({name: bool(told[name]) for name in _TRUTHS})
        self._values(**told)
        if register:
            shelf = _shelf_of(self)
            shelf.register(country_code if shelf is _of_codes else id, self)

    def __repr__(self) -> str:
        first = f"id={self.id!r}, country_code={self.country_code!r}"
        told = [f"{first}, international_prefix={self.international_prefix!r}"]
        for name in _NAMES[3:]:
            value = getattr(self, name)
            if isinstance(value, list) and value:
                told.append(f"{name}=[" + ",\n        ".join(map(repr, value)) + "]")
            elif name in _ALWAYS or value not in (None, [], False):
                told.append(f"{name}={value!r}")
        return f"{type(self).__name__}(" + ",\n    ".join(told) + ")"

    @classmethod
    def metadata_for_region(
        cls, region_code: Optional[str], default: Optional[PhoneMetadata] = None
    ) -> Optional[PhoneMetadata]:
        """The territory of a region."""
        return _of_regions.get(region_code, default)

    @classmethod
    def short_metadata_for_region(
        cls, region_code: Optional[str], default: Optional[PhoneMetadata] = None
    ) -> Optional[PhoneMetadata]:
        """The short numbers of a region."""
        return _of_short.get(region_code, default)

    @classmethod
    def metadata_for_nongeo_region(
        cls, country_code: int, default: Optional[PhoneMetadata] = None
    ) -> Optional[PhoneMetadata]:
        """The territory of a calling code that is no region's."""
        return _of_codes.get(country_code, default)

    @classmethod
    def metadata_for_region_or_calling_code(
        cls, country_calling_code: int, region_code: Optional[str]
    ) -> Optional[PhoneMetadata]:
        """The territory of a region, or of a calling code where the region is `001`."""
        if region_code == _regions.NO_REGION:
            return cls.metadata_for_nongeo_region(country_calling_code)
        return cls.metadata_for_region(region_code)

    @classmethod
    def register_region_loader(cls, region_code: str, loader: Callable[[str], Any]) -> None:
        """What is called, with the region, before a territory is looked for: to register one."""
        _of_regions.loaders.given[region_code] = loader

    @classmethod
    def register_short_region_loader(cls, region_code: str, loader: Callable[[str], Any]) -> None:
        """The same of a region's short numbers."""
        _of_short.loaders.given[region_code] = loader

    @classmethod
    def register_nongeo_region_loader(cls, country_code: int, loader: Callable[[int], Any]) -> None:
        """The same of a calling code that is no region's."""
        _of_codes.loaders.given[country_code] = loader

    @classmethod
    def load_all(cls) -> None:
        """Makes all of them."""
        for shelf in (_of_regions, _of_codes):
            for key in list(shelf.loaders):
                shelf.get(key, None)


def _plain(pattern: Optional[str]) -> Optional[str]:
    """A pattern as that package has it: the table's ends with `$` behind a group."""
    is_closed = pattern is not None and pattern.startswith("(?:") and pattern.endswith(")$")
    return pattern[3:-2] if is_closed and pattern else pattern


def _desc(of: Dict[str, Any]) -> PhoneNumberDesc:
    """The numbers of a kind, by the table's record of it."""
    lengths = of.get("possible_length"), of.get("possible_local_length")
    return PhoneNumberDesc(_plain(of.get("national_number")), of.get("example"), *lengths)


def _layout(of: Dict[str, Any], prefix: str) -> NumberFormat:
    """A layout, by the table's record of it: groups and national prefix as that package has them."""

    def rule(name: str) -> Optional[str]:
        text = of.get(name)
        return text and text.replace("$NP", prefix).replace("$FG", "\\1")

    return NumberFormat(
        of.get("pattern"), of.get("format", "").replace("$", "\\"), of.get("leading_digits"),
        rule("national_prefix_formatting_rule"), of.get("national_prefix_optional_when_formatting"),
        rule("domestic_carrier"),
    )


def _made(record: Optional[Dict[str, Any]], **values: Any) -> Optional[PhoneMetadata]:
    """The territory that a record of a table is."""
    if record is None:
        return None
    values.update({name: _desc(record[it]) for name, it in _KINDS.items() if it in record})
    values.update({name: record[it] for name, it in _TEXTS.items() if it in record})
    prefix, rule = record.get("national_prefix", ""), record.get("national_prefix_transform_rule")
    values.setdefault("national_prefix_for_parsing", prefix or None)
    # There layouts of international text are none where they are those of national text.
    formats, others = record.get("formats", ()), record.get("international_formats", ())
    return PhoneMetadata(
        record["id"], register=False,
        international_prefix=record.get("international_prefix"),
        leading_digits=record.get("leading_digits"),
        number_format=[_layout(it, prefix) for it in formats],
        intl_number_format=[_layout(it, prefix) for it in others if others != formats],
        main_country_for_code=record.get("main_country_for_code"),
        mobile_number_portable_region=record.get("mobile_number_portable"),
        **{**values, "national_prefix_transform_rule": rule and rule.replace("$", "\\")},
    )


def _of_region(region: str) -> Optional[PhoneMetadata]:
    code = _regions.code_by_region().get(region)
    return None if code is None else _made(_regions.records()[code, region], country_code=code)


def _of_code(code: int) -> Optional[PhoneMetadata]:
    return _made(_regions.records().get((code, _regions.NO_REGION)), country_code=code)


def _of_short_numbers(region: str) -> Optional[PhoneMetadata]:
    record = _regions.short_records().get(region)
    services = _regions.sms_records().get(region)
    if record and services:
        record = {**record, "sms": services["general"]}
    return _made(record, short_data=True)


_of_regions = _Shelf(_of_region, lambda: list(_regions.code_by_region()))
_of_short = _Shelf(_of_short_numbers, lambda: list(_regions.short_records()))
_of_codes = _Shelf(
    _of_code, lambda: [code for code, it in _regions.records() if it == _regions.NO_REGION]
)


def _shelf_of(record: PhoneMetadata) -> _Shelf:
    """Where a record is registered."""
    if record.id == _regions.NO_REGION:
        return _of_codes
    return _of_short if record.short_data else _of_regions


# The names that they have there.
for _name, _shelf in (("region", _of_regions), ("short_region", _of_short), ("country_code", _of_codes)):
    setattr(PhoneMetadata, f"_{_name}_available", _shelf.loaders)
    setattr(PhoneMetadata, f"_{_name}_metadata", _shelf.records)
