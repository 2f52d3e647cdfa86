"""What users of the package `phonenumbers` count on, as tables, under its names: names.py.

The last line is `names: ok`; else a line tells each case that isn't so.
"""

import contextlib
import copy
import doctest
import io
import pickle
import re
import subprocess
import sys
from pathlib import Path

from phonenumber_proved import phonenumbers as names
from phonenumber_proved.phonenumbers import NumberParseException as Refused
from phonenumber_proved.phonenumbers import Leniency, MatchType, PhoneNumber, PhoneNumberFormat, PhoneNumberType, ValidationResult

# Text, region, the fields that are set, and the text in each format.
READ = [
    ("020 8366 1177", "GB", {"country_code": 44, "national_number": 2083661177},
     ("+442083661177", "+44 20 8366 1177", "020 8366 1177", "tel:+44-20-8366-1177")),
    ("+39 02 3661 8300", None, {"country_code": 39, "national_number": 236618300, "italian_leading_zero": True},
     ("+390236618300", "+39 02 3661 8300", "02 3661 8300", "tel:+39-02-3661-8300")),
    ("+39 00 3661 8300", "ZZ",
     {"country_code": 39, "national_number": 36618300, "italian_leading_zero": True, "number_of_leading_zeros": 2},
     ("+390036618300", "+39 0036618300", "0036618300", "tel:+39-0036618300")),
    ("03 331 6005 ext 3456", "NZ", {"country_code": 64, "national_number": 33316005, "extension": "3456"},
     ("+6433316005", "+64 3 331 6005 ext. 3456", "03 331 6005 ext. 3456", "tel:+64-3-331-6005;ext=3456")),
]

# Text, region, what is kept of it: how the calling code was found, and a carrier.
KEPT = [
    ("+64 3 331 6005", None, 1, None), ("00 64 3 331 6005", "NZ", 5, None), ("64 3 331 6005", "NZ", 10, None),
    ("03 331 6005", "NZ", 20, None), ("0 15 11 2345 6789", "BR", 20, "15"),
]

# Number, kind, region, validity, whether it is possible.
TOLD = [
    ((64, 33316005), PhoneNumberType.FIXED_LINE, "NZ", True, ValidationResult.IS_POSSIBLE),
    ((1, 6502530000), PhoneNumberType.FIXED_LINE_OR_MOBILE, "US", True, ValidationResult.IS_POSSIBLE),
    ((1, 2423651234), PhoneNumberType.FIXED_LINE, "BS", True, ValidationResult.IS_POSSIBLE),
    ((800, 12345678), PhoneNumberType.TOLL_FREE, "001", True, ValidationResult.IS_POSSIBLE),
    ((1, 2530000), PhoneNumberType.UNKNOWN, None, False, ValidationResult.IS_POSSIBLE_LOCAL_ONLY),
    ((1, 253), PhoneNumberType.UNKNOWN, None, False, ValidationResult.TOO_SHORT),
    ((1, 65025300000), PhoneNumberType.UNKNOWN, None, False, ValidationResult.TOO_LONG),
    ((999, 1234567), PhoneNumberType.UNKNOWN, None, False, ValidationResult.INVALID_COUNTRY_CODE),
    ((1 << 20, 1 << 60), PhoneNumberType.UNKNOWN, None, False, ValidationResult.INVALID_COUNTRY_CODE),
]

# Text, region, why it is no number.
REFUSED = [
    ("call me", "NZ", Refused.NOT_A_NUMBER), (None, "NZ", Refused.NOT_A_NUMBER), ("\ud800 12345", "NZ", Refused.NOT_A_NUMBER),
    ("03 331 6005", None, Refused.INVALID_COUNTRY_CODE), ("03 331 6005", "ZZ", Refused.INVALID_COUNTRY_CODE),
    ("+999 1234567", None, Refused.INVALID_COUNTRY_CODE), ("+49 0", "DE", Refused.TOO_SHORT_NSN),
    ("1" * 20, "DE", Refused.TOO_LONG), ("1" * 300, "DE", Refused.TOO_LONG),
]

# Text, region: whether it reaches emergency services, whether it is an emergency number.
EMERGENCIES = [("911", "US", True, True), ("9116", "US", True, False), ("133", "CL", True, True), ("112", "ZZ", False, False)]

# Two texts or numbers, and how like they are.
MATCHES = [
    ("+64 3 331 6005", "tel:+64-3-331-6005", MatchType.EXACT_MATCH), ("+64 3 331 6005", "03 331 6005", MatchType.NSN_MATCH),
    ("03 331 6005", "+64 3 331 6005", MatchType.NSN_MATCH), ("+64 3 331 6005", PhoneNumber(64, 33316005), MatchType.EXACT_MATCH),
    ("+64 3 331 6005", "+64 3 331 6005 ext. 12", MatchType.SHORT_NSN_MATCH), ("+64 3 331 6005", "331 6005", MatchType.SHORT_NSN_MATCH),
    ("+64 3 331 6005 ext. 1", "+64 3 331 6005 ext. 2", MatchType.NO_MATCH), ("+64 3 331 6005", "+16502530000", MatchType.NO_MATCH),
    ("331 6005", "3 331 6005", MatchType.SHORT_NSN_MATCH), ("331 6005", "331-6005", MatchType.NSN_MATCH),
    ("call me", "+64 3 331 6005", MatchType.NOT_A_NUMBER), ("+64 3 331 6005", "call me", MatchType.NOT_A_NUMBER),
    ("call me", "331 6005", MatchType.NOT_A_NUMBER), (PhoneNumber(800, 12345678), "12345678", MatchType.NOT_A_NUMBER),
]

# Text, region, leniency, and what is found.
FOUND = [
    ("Ring 03-331 6005, or +1 650 253 0000", "NZ", Leniency.VALID, [(5, "03-331 6005", 33316005), (21, "+1 650 253 0000", 6502530000)]),
    ("Z\u00fcrich \U0001f4a9 +41 44 668 18 00", None, Leniency.VALID, [(9, "+41 44 668 18 00", 446681800)]),
    ("033 31 60 05", "NZ", Leniency.VALID, [(0, "033 31 60 05", 33316005)]), ("033 31 60 05", "NZ", Leniency.STRICT_GROUPING, []),
    ("03 3316 005, 033 31 60 05", "NZ", Leniency.EXACT_GROUPING, [(0, "03 3316 005", 33316005)]),
    ("03 331 6005, 03 3316005", "NZ", Leniency.EXACT_GROUPING, [(0, "03 331 6005", 33316005)]),
    ("+1 650 253 000", "US", Leniency.VALID, []), ("no number", "ZZ", Leniency.POSSIBLE, []), (None, "US", Leniency.VALID, []),
]

failed = []


def check(case, told, wanted):
    if told != wanted:
        failed.append(case)
        print(f"{case}: {told!r}, not {wanted!r}")


def why(text, region):
    """Why a text is no number."""
    try:
        return names.parse(text, region)
    except Refused as error:
        check(text, str(pickle.loads(pickle.dumps(error))), str(error))
        return error.error_type


def numbers_are_read():
    for text, region, fields, texts in READ:
        number = names.parse(text, region)
        check(text, number, PhoneNumber(**fields))
        check(text, tuple(names.format_number(number, it) for it in range(4)), texts)
    for text, region, source, carrier in KEPT:
        number = names.parse(text, region, keep_raw_input=True)
        told = number.raw_input, number.country_code_source, number.preferred_domestic_carrier_code
        check(text, told, (text, source, carrier))
    for text, region, reason in REFUSED:
        check(text, why(text, region), reason)


def numbers_are_told():
    for (code, value), kind, region, is_valid, reason in TOLD:
        number = PhoneNumber(code, value)
        told = names.number_type(number), names.region_code_for_number(number), names.is_valid_number(number)
        check(number, told, (kind, region, is_valid))
        check(number, names.is_possible_number_with_reason(number), reason)
        check(number, names.is_possible_number(number), reason in (0, 4))
    check("code", names.format_number(PhoneNumber(999, 12), PhoneNumberFormat.NATIONAL), "12")
    check("code", names.format_number(PhoneNumber(999, 12), PhoneNumberFormat.E164), "+99912")
    bahamas = PhoneNumber(1, 2423651234)
    check("region", [names.is_valid_number_for_region(bahamas, it) for it in ("BS", "US", "NZ", None)], [True, False, False, False])
    check("codes", (names.country_code_for_region("NZ"), names.region_code_for_country_code(1)), (64, "US"))
    check("kind", PhoneNumberType.to_string(PhoneNumberType.VOIP), "VOIP")


def short_numbers_are_told():
    for text, region, reaches, is_one in EMERGENCIES:
        told = names.connects_to_emergency_number(text, region), names.is_emergency_number(text, region)
        check(text, told, (reaches, is_one))
    check("111", names.is_valid_short_number_for_region(PhoneNumber(64, 111), "NZ"), True)
    check("111", names.is_valid_short_number_for_region(PhoneNumber(64, 111), "US"), False)


def numbers_are_compared_and_found():
    for one, two, match in MATCHES:
        check((one, two), MatchType.to_string(names.is_number_match(one, two)), MatchType.to_string(match))
    for text, region, leniency, found in FOUND:
        matcher = names.PhoneNumberMatcher(text, region, leniency)
        check(text, [(it.start, it.raw_string, it.number.national_number) for it in matcher], found)
        check(text, (matcher.has_next(), len(list(matcher))), (False, 0))
    for wrong in (dict(leniency=4), dict(leniency=None), dict(max_tries=-1)):
        try:
            check(wrong, names.PhoneNumberMatcher("", None, **wrong), "a refusal")
        except ValueError:
            pass
    check("tries", list(names.PhoneNumberMatcher("+64 3 331 6005", None, max_tries=0)), [])


# Number; its description in German, and for a user in Germany; its carrier in English, safe to show; its time zones.
PLACES = [
    ("+41431302564", "Z\u00fcrich", "Schweiz", "", "", ("Europe/Zurich",)),
    ("+51912345671", "Peru", "Peru", "Entel", "", ("America/Lima",)),
    ("+6913206949", "Mikronesien", "Mikronesien", "FSMTC", "FSMTC", ("Pacific/Ponape",)),
    ("+5493404322936", "", "", "", "", ("Etc/Unknown",)),
    ("+18002127978", "", "", "", "", None),
]


def places_are_told():
    for text, area, elsewhere, carrier, safe, zones in PLACES:
        number = names.parse(text)
        told = names.geocoder.description_for_number(number, "de"), names.geocoder.description_for_number(number, "de", region="DE")
        check(text, told, (area, elsewhere))
        check(text, (names.carrier.name_for_number(number, "en"), names.carrier.safe_display_name(number, "en")), (carrier, safe))
        if zones:
            check(text, names.timezone.time_zones_for_number(number), zones)
    check("zones", len(names.timezone.time_zones_for_number(names.parse("+18002127978"))), 42)
    nowhere = PhoneNumber(1 << 20, 1 << 60)
    check(nowhere, (names.geocoder.description_for_valid_number(nowhere, "en"), names.timezone.time_zones_for_number(nowhere)),
          ("", (names.timezone.UNKNOWN_TIMEZONE,)))


def regions_are_told():
    told = names.country_code_for_valid_region("NZ"), names.is_nanpa_country("BS"), names.is_nanpa_country("NZ"), names.is_nanpa_country(None)
    check("codes", told, (64, True, False, False))
    check("prefixes", [names.ndd_prefix_for_region(it, True) for it in ("NZ", "us", "XX", None)], ["0", "1", None, None])
    check("lists", (979 in names.supported_calling_codes(), 979 in names.COUNTRY_CODES_FOR_NON_GEO_REGIONS), (True, True))
    check("lists", (64 in names.COUNTRY_CODES_FOR_NON_GEO_REGIONS, "NZ" in names.SUPPORTED_SHORT_REGIONS), (False, True))
    check("digits", (names.normalize_digits_only("+\u0663a4"), names.normalize_digits_only("+\u0663a4", True)), ("34", "+3a4"))
    for region in ("NZ", "US", "GB"):
        number = names.example_number(region)
        check(region, (names.is_valid_number(number), names.region_code_for_number(number)), (True, region))
    check("example", (names.example_number("001"), names.example_number_for_type("NZ", PhoneNumberType.VOICEMAIL)), (None, None))
    dialled = [names.format_out_of_country_calling_number(PhoneNumber(1, 6502530000), it) for it in ("US", "DE", "BS", "ZZ")]
    check("dialled", dialled, ["1 (650) 253-0000", "00 1 650-253-0000", "1 (650) 253-0000", "+1 650-253-0000"])


# Region, text: the region where it is dialled, and how it is printed as it was written.
ORIGINALS = [
    ("NZ", "3 331 6005", "NZ", "3 331 6005"), ("NZ", "03-331-6005", "NZ", "03 331 6005"), ("GB", "020 7946 0018 #5", "GB", "020 7946 0018 #5"),
    (None, "+64 33316005", "NZ", "+64 3 331 6005"), ("NZ", "0064 33316005", "NZ", "0064 33316005"), ("US", "011 64 33316005", "US", "011 64 3 331 6005"),
    ("NZ", "64 33316005", "NZ", "64 3 331 6005"),
]

# Region, text: the region where it is dialled on a mobile phone, whether with symbols, and what is dialled.
MOBILES = [
    ("BR", "0 31 21 2128 6979", "BR", False, "0312121286979"), ("BR", "21 2128 6979", "BR", True, ""), (None, "+61 1300 123456", "AU", True, "1300 123 456"),
    (None, "+61 1300 123456", "CX", True, ""), (None, "+64 3 331 6005 ext. 5", "US", True, "+64 3 331 6005"), (None, "+64 3 331 6005", None, False, "+6433316005"),
]


# Region, text: the region where it is dialled, and what is dialled with its letters.
LETTERS = [
    ("US", "1-800-FLOWERS", "NZ", "00 1 800-FLOWERS"), ("US", "1-800-FLOWERS", "CA", "1 800-FLOWERS"), ("NZ", "0800 FLOWERS", "NZ", "0800 FLOWERS"),
    ("NZ", "0800 FLOWERS", "UA", "00 64 800 FLOWERS"), ("NZ", "03 331 6005", "NZ", "003 331 6005"),
]


def numbers_are_dialled():
    for hint, text, region, wanted in ORIGINALS:
        number = names.parse(text, hint, keep_raw_input=True)
        check(text, names.format_in_original_format(number, region), wanted)
    check("no text", names.format_in_original_format(PhoneNumber(64, 33316005), "NZ"), "03 331 6005")
    for hint, text, region, symbols, wanted in MOBILES:
        number = names.parse(text, hint, keep_raw_input=True)
        check(text, names.format_number_for_mobile_dialing(number, region, symbols), wanted)
    own = names.NumberFormat(pattern=r"(\d)(\d+)", format=r"\1 \2", national_prefix_formatting_rule="($NP$FG)")
    told = [names.format_by_pattern(PhoneNumber(64, 33316005), it, [own]) for it in range(4)]
    check("layouts", told, ["+643 3316005", "+64 3 3316005", "(03) 3316005", "tel:+64-3-3316005"])
    check("layouts", names.format_by_pattern(PhoneNumber(999, 33316005), PhoneNumberFormat.NATIONAL, [own]), "33316005")
    for hint, text, region, wanted in LETTERS:
        number = names.parse(text, hint, keep_raw_input=True)
        check(text, names.format_out_of_country_keeping_alpha_chars(number, region), wanted)
    told = [names.format_out_of_country_keeping_alpha_chars(PhoneNumber(64, 33316005), it) for it in ("NZ", "ZZ")]
    check("no letters", told, ["03 331 6005", "+64 3 331 6005"])
    check("no code", names.format_out_of_country_keeping_alpha_chars(PhoneNumber(999, 12), "NZ"), "12")
    part = names.phonenumberutil._extract_possible_number
    check("part", [part(it) for it in ("Tel: 12 / x34", "call me", "+1 650!")], ["12 ", "", "+1 650"])
    zeros = names.parse("000", "IT", keep_raw_input=True)
    check("zeros", [names.format_number(zeros, it) for it in range(4)], ["+39000", "000", "000", "000"])
    short, of = names.shortnumberinfo, PhoneNumber(1, 911)
    told = names.is_possible_short_number(of), names.is_valid_short_number(of), names.expected_cost(of), names.is_carrier_specific(of)
    check("911", told, (True, True, names.ShortNumberCost.UNKNOWN_COST, False))
    told = short._example_short_number("FR"), short._example_short_number("XX"), short._example_short_number_for_cost("FR", 3)
    check("examples", told, ("15", "", ""))


# Number: what `truncate_too_long_number` answers, and what it leaves.
TRUNCATED = [((64, 333160059), True, 33316005), ((64, 33316005), True, 33316005), ((64, 12), False, 12), ((999, 12), False, 12)]


def further_questions_are_answered():
    for (code, value), is_valid, left in TRUNCATED:
        number = PhoneNumber(code, value)
        check(number, (names.truncate_too_long_number(number), number.national_number), (is_valid, left))
    past = PhoneNumber(1 << 20, 1 << 60)
    told = names.truncate_too_long_number(past), names.length_of_geographical_area_code(past), names.is_number_geographical(past)
    check("past", told, (False, 0, False))
    check("past", names.is_number_match(past, PhoneNumber(64, 33316005)), MatchType.NOT_A_NUMBER)
    check("past", names.format_national_number_with_carrier_code(past, "15"), str(1 << 60))
    check("past", names.is_possible_number_for_type_with_reason(past, 0), ValidationResult.INVALID_COUNTRY_CODE)
    check("types", [names.supported_types_for_region(it) for it in ("ZZ", None, "nz")], [set()] * 3)
    check("types", names.supported_types_for_non_geo_entity(800), {PhoneNumberType.TOLL_FREE})
    check("codes", [names.region_code_for_country_code(it) for it in (64, 800, 0, -1, 1 << 16)], ["NZ", "001", "ZZ", "ZZ", "ZZ"])
    brazil = names.parse("0 31 21 2128-6979", "BR", keep_raw_input=True)
    texts = names.format_national_number_with_carrier_code(brazil, "15"), names.format_national_number_with_preferred_carrier_code(brazil, "15")
    check("carrier", texts, ("0 15 (21) 2128-6979", "0 31 (21) 2128-6979"))


def numbers_are_data():
    number = PhoneNumber(64, 33316005)
    frozen = names.FrozenPhoneNumber(number)
    check("same", (frozen == number, copy.deepcopy(number) == number, len({frozen, copy.copy(frozen)})), (True, True, 1))
    check("pickled", pickle.loads(pickle.dumps(frozen)) == frozen, True)
    number.merge_from(PhoneNumber(extension="12"))
    check("merged", (number.extension, number.country_code, frozen == number), ("12", 64, False))
    for change in (frozen.clear, lambda: setattr(frozen, "country_code", 1), lambda: delattr(frozen, "country_code")):
        try:
            check("frozen", change(), "a refusal")
        except TypeError:
            pass


class Customer(PhoneNumber):
    """A number with a field of its own, as other packages make of this class."""

    def __init__(self, owner, **fields):
        super().__init__(**fields)
        self.owner = owner


def numbers_have_classes_made_of_them():
    number, customer = PhoneNumber(64, 33316005), Customer("Mere", country_code=64, national_number=33316005)
    check("equal", (customer == number, number == customer, customer == Customer("Hone", country_code=64, national_number=33316005)), (True,) * 3)
    number.merge_from(Customer("Mere", extension="12"))
    customer.merge_from(number)
    check("merged", (number.extension, hasattr(number, "owner"), customer.extension, customer.owner), ("12", False, "12", "Mere"))
    customer.clear()
    check("cleared", (customer.country_code, customer.owner, customer == PhoneNumber()), (None, "Mere", True))
    check("set in another order", eval_fields(extension="1", national_number=2, country_code=3) == PhoneNumber(3, 2, "1"), True)
    check("shown", str(Customer("Mere", country_code=1, national_number=2)), "Country Code: 1 National Number: 2")
    bare = names.parse("0401234567", None, _check_region=False)
    check("without a code", (bare.country_code, bare.national_number, bare.italian_leading_zero), (0, 401234567, True))


def eval_fields(**fields):
    """A number whose fields are set one after the other."""
    it = PhoneNumber()
    for name, value in fields.items():
        delattr(it, name)
        setattr(it, name, value)
    return it


INSTALLED = """
import sys
from phonenumber_proved import phonenumbers as ours
ours.install()
ours.install()
import phonenumbers
from phonenumbers.phonenumberutil import NumberParseException, region_code_for_number
from phonenumbers.phonenumber import PhoneNumber
import phonenumbers.shortnumberinfo, phonenumbers.phonenumbermatcher, phonenumbers.asyoutypeformatter, phonenumbers.phonemetadata
assert phonenumbers is ours and PhoneNumber is ours.PhoneNumber and phonenumbers.phonenumber.PhoneNumber is PhoneNumber
assert not ours._regions.records.cache_info().currsize
from phonenumbers.phonenumberutil import SUPPORTED_REGIONS
assert len(SUPPORTED_REGIONS) == 245 and SUPPORTED_REGIONS is phonenumbers.SUPPORTED_REGIONS
assert ours._regions.records.cache_info().currsize
assert phonenumbers.phonenumberutil.COUNTRY_CODE_TO_REGION_CODE[64] == ("NZ",)
from phonenumbers import *
assert NumberParseException is phonenumbers.NumberParseException and parse("+6433316005") == PhoneNumber(64, 33316005)
"""
TOO_LATE = """
import sys, types
sys.modules["phonenumbers"] = types.ModuleType("phonenumbers")
from phonenumber_proved import phonenumbers as ours
try: ours.install()
except RuntimeError: sys.exit(0)
sys.exit(1)
"""


def package_is_installed():
    for program in (INSTALLED, TOO_LATE):
        check(program, subprocess.run([sys.executable, "-c", program], check=False).returncode, 0)
    check("keywords", (names.is_valid_short_number_for_region(short_numobj=PhoneNumber(64, 111), region_dialing_from="NZ"),
                       names.is_possible_short_number_for_region(short_numobj=PhoneNumber(64, 111), region_dialing_from="NZ")), (True, True))


def records_are_told():
    record = names.PhoneMetadata.metadata_for_region("NZ")
    check("record", (record.id, record.country_code, record.national_prefix, record.international_prefix), ("NZ", 64, "0", "0(?:0|161)"))
    check("kinds", (record.mobile.possible_length, record.pager is None, record.fixed_line.example_number), ((8, 9, 10), True, "32345678"))
    layouts = record.number_format, names.PhoneMetadata.metadata_for_region("US").intl_number_format
    check("layouts", [it[-1].format for it in layouts], ["\\1 \\2 \\3", "\\1-\\2-\\3"])
    check("rules", (record.number_format[0].national_prefix_formatting_rule, record.national_prefix_for_parsing), ("0\\1", "0"))
    check("others", (names.PhoneMetadata.metadata_for_region("XX"), names.PhoneMetadata.metadata_for_nongeo_region(800).id,
                     names.PhoneMetadata.metadata_for_region_or_calling_code(800, "001").country_code), (None, "001", 800))
    check("same", record == names.PhoneMetadata.metadata_for_region("NZ"), True)
    check("told", eval(repr(record), vars(names)) == record, True)
    short = names.PhoneMetadata.short_metadata_for_region("NZ")
    check("short", (short.id, short.country_code, short.short_data, short.emergency.example_number, short.sms_services.possible_length),
          ("NZ", None, True, "111", (3, 4)))
    check("no short", names.PhoneMetadata.short_metadata_for_region("XX", record) is record, True)


def records_are_registered():
    own, loaded = names.PhoneMetadata("XY", national_prefix="9"), []
    names.PhoneMetadata("XY", national_prefix="9")
    names.PhoneMetadata("XY", national_prefix="8", register=False)
    names.PhoneMetadata.register_region_loader("XZ", lambda it: loaded.append(names.PhoneMetadata(it)))
    for _ in range(2):
        found = names.PhoneMetadata.metadata_for_region("XZ")
        check("loaded", ([it.id for it in loaded], found is loaded[0]), (["XZ"], True))
    check("registered", names.PhoneMetadata.metadata_for_region("XY") is own, True)
    check("no answer changes", (names.is_supported("XY"), "XY" in names.SUPPORTED_REGIONS), (False, False))
    for change in (
        lambda: names.PhoneMetadata("XY", national_prefix="8"), lambda: names.PhoneMetadata("NZ"), lambda: setattr(own, "national_prefix", "8"),
        lambda: delattr(own, "id"), lambda: own.merge_from(own), lambda: names.PhoneMetadata("XY", prefix="9"),
    ):
        try:
            change()
        except Exception:  # pylint: disable=broad-except
            continue
        check("refused", change, "a refusal")
    own._mutable = True
    own.national_prefix = "8"
    check("changed", own.national_prefix, "8")


def readme():
    """The examples of README.md print what stands behind their lines."""
    text = Path(__file__).with_name("README.md").read_text(encoding="utf-8")
    for block in re.findall(r"```python\n(.*?)```", text, re.DOTALL):
        printed = io.StringIO()
        with contextlib.redirect_stdout(printed):
            exec(block, {})
        check(block, printed.getvalue().splitlines(), re.findall(r"  # (.*)", block))


def main():
    for case in (numbers_are_read, numbers_are_told, numbers_are_compared_and_found, regions_are_told, places_are_told, short_numbers_are_told,
                 numbers_are_dialled, further_questions_are_answered, numbers_are_data, numbers_have_classes_made_of_them, package_is_installed,
                 records_are_told, records_are_registered, readme):
        case()
    missing = [name for name in names.__all__ if not hasattr(names, name)]
    check("names", missing, [])
    told = [doctest.testmod(sys.modules[it]).failed for it in (names.__name__, names.is_number_match.__module__, names.format_number.__module__)]
    check("docstrings", told, [0, 0, 0])
    print(f"names: {len(failed)} failed" if failed else "names: ok")
    return 1 if failed else 0


if __name__ == "__main__":
    sys.exit(main())
