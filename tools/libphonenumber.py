"""libphonenumber's answers under a table of this port, by the Python package phonenumbers (Debian: python3-phonenumbers).

The package's records are taken out, and those of a database text are put in their place, in the form that the package has them in
(the head of tools/world tells the difference). So answers differ from this port's by the rules alone, and not by the table.

The rules are those of the package's version, 8.12.57 in Debian 12, with one of later versions, which the package doesn't have: a
text whose `;phone-context=` has behind it neither a number with a plus sign nor a domain's name is no number.

Given a database text and a file of lines, each a hint (`-` for none), one tab and the text, it prints an answer for each, its
fields parted by tabs, `-` where there is none: `ok` and the fields of FIELDS, or `error` and the refusal's name.

usage: /usr/bin/python3 tools/libphonenumber.py DATABASE LINES
"""
import json
import re
import sys

# The fields of an answer. `value` is the national number without its leading zeros, `number` the E.164 text.
FIELDS = "code value extension zeros kind region valid number international national rfc3966 source carrier".split()
# The descriptors of a record, with the package's names. The package asks no others.
DESCRIPTORS = {name: name for name in "fixed_line mobile toll_free premium_rate shared_cost personal_number voip pager uan voicemail".split()}
DESCRIPTORS |= {"general": "general_desc", "no_international": "no_international_dialling"}
# The other fields that are the same in a record and in the package.
PLAIN = """id country_code international_prefix preferred_international_prefix national_prefix leading_digits
main_country_for_code""".split()
REFUSALS = {"INVALID_COUNTRY_CODE": "InvalidCountryCode", "NOT_A_NUMBER": "NoNumber", "TOO_SHORT_AFTER_IDD": "TooShortAfterIdd",
            "TOO_SHORT_NSN": "TooShortNsn", "TOO_LONG": "TooLong"}
SOURCES = {"FROM_NUMBER_WITH_PLUS_SIGN": "plus", "FROM_NUMBER_WITH_IDD": "idd", "FROM_NUMBER_WITHOUT_PLUS_SIGN": "number",
           "FROM_DEFAULT_COUNTRY": "default"}
# What may follow `;phone-context=`, as RFC 3966 has it: a number with a plus sign, or a domain's name.
LABEL = r"(?:[-A-Za-z\d]*[A-Za-z\d])?"
CONTEXT = re.compile(rf"\+[-.()]*\d[-.()\d]*|(?:[A-Za-z\d]{LABEL}\.)*[A-Za-z]{LABEL}\.?")
MOST_CHARACTERS = 250


def names(of, wanted):
    """The values of a class's constants, with our names for them."""
    return {getattr(of, theirs): ours for theirs, ours in wanted.items()}


def with_backslashes(template):
    """A template or transform rule as the package writes it."""
    return re.sub(r"\$(\d)", r"\\\1", template) if template else None


def rule(text, national_prefix):
    """A rule of a layout as the package writes it."""
    return with_backslashes(text.replace("$NP", national_prefix or "").replace("$FG", "$1")) if text else None


def opened(pattern):
    """A pattern as it was before tools/world closed it."""
    closed = re.fullmatch(r"\(\?:(.*)\)\$", pattern, re.DOTALL)
    return closed[1] if closed else pattern


class Library:
    """libphonenumber, with the records of a database text as its table. There is one table at a time."""

    def __init__(self, database):
        try:
            import phonenumbers
        except ImportError as error:
            sys.exit(f"the Python package phonenumbers is needed, in Debian python3-phonenumbers ({error})")
        self.of = phonenumbers
        self.refusals = names(phonenumbers.NumberParseException, REFUSALS)
        self.sources = names(phonenumbers.CountryCodeSource, SOURCES)
        self.kinds = {value: "".join(word.title() for word in name.split("_"))
                      for name, value in vars(phonenumbers.PhoneNumberType).items() if isinstance(value, int)}
        modes = phonenumbers.PhoneNumberFormat
        self.modes = modes.E164, modes.INTERNATIONAL, modes.NATIONAL, modes.RFC3966
        with open(database, encoding="utf-8") as file:
            self.put(json.load(file))

    def put(self, records):
        """Puts records in the place of the package's own, and all that the package derives from them."""
        table = self.of.PhoneMetadata
        for held in table._region_available, table._country_code_available, table._region_metadata, table._country_code_metadata:
            held.clear()
        for it in records:
            self.territory(it)
        codes = self.of.COUNTRY_CODE_TO_REGION_CODE
        codes.clear()
        # the main territory of a code comes first
        for it in sorted(records, key=lambda it: not it.get("main_country_for_code")):
            codes[it["country_code"]] = *codes.get(it["country_code"], ()), it["id"]
        self.of.phonenumberutil._regenerate_derived_data()

    def territory(self, it):
        """Makes the package's territory of a record; the package keeps it."""
        prefix = it.get("national_prefix")
        national, international = ([self.layout(of, prefix) for of in it.get(name, ())] for name in ("formats", "international_formats"))
        self.of.PhoneMetadata(
            **{name: it.get(name) for name in PLAIN}, preferred_extn_prefix=it.get("preferred_extension_prefix"),
            national_prefix_for_parsing=it.get("national_prefix_for_parsing") or prefix,
            national_prefix_transform_rule=with_backslashes(it.get("national_prefix_transform_rule")),
            number_format=national, intl_number_format=international if international != national else None,
            **{theirs: self.descriptor(it.get(ours)) for ours, theirs in DESCRIPTORS.items()})

    def layout(self, it, prefix):
        return self.of.NumberFormat(
            it["pattern"], with_backslashes(it["format"]), it.get("leading_digits"), rule(it.get("national_prefix_formatting_rule"), prefix),
            it.get("national_prefix_optional_when_formatting"), rule(it.get("domestic_carrier"), prefix))

    def descriptor(self, it):
        return it and self.of.PhoneNumberDesc(
            opened(it["national_number"]), it.get("example"), it.get("possible_length"), it.get("possible_local_length"))

    def parse(self, hint, text, **words):
        """The number that a text is; the package's refusal is an exception."""
        before, sign, rest = text.partition(";phone-context=")
        if sign and len(text) <= MOST_CHARACTERS and not CONTEXT.fullmatch(rest.partition(";")[0]):
            raise self.of.NumberParseException(self.of.NumberParseException.NOT_A_NUMBER, "phone-context")
        return self.of.parse(text, None if hint == "-" else hint, **words)

    def answer(self, hint, text):
        """What is answered to the bytes of a text under a hint: the texts of FIELDS by name, or the refusal's name alone."""
        try:
            number = self.parse(hint, text.decode())
            told = self.parse(hint, text.decode(), keep_raw_input=True)
        except UnicodeDecodeError:
            return {"refusal": "not UTF-8"}
        except self.of.NumberParseException as refusal:
            return {"refusal": self.refusals[refusal.error_type]}
        zeros = number.number_of_leading_zeros or 1 if number.italian_leading_zero else 0
        region = self.of.region_code_for_number(number)
        values = [number.country_code, number.national_number, "-" if number.extension is None else number.extension, zeros,
                  self.kinds[self.of.number_type(number)], "-" if region in (None, "001") else region,
                  "valid" if self.of.is_valid_number(number) else "invalid",
                  *(self.of.format_number(number, mode) for mode in self.modes), self.sources[told.country_code_source],
                  told.preferred_domestic_carrier_code or "-"]
        return dict(zip(FIELDS, map(str, values)))

    def found(self, hint, text):
        """A text with braces around each piece in which the package's matcher finds a valid number, and the numbers' E.164 texts,
        each after a tab."""
        marked, numbers, place = "", "", 0
        for it in self.of.PhoneNumberMatcher(text, None if hint == "-" else hint):
            marked += f"{text[place:it.start]}{{{text[it.start:it.end]}}}"
            numbers += "\t" + self.of.format_number(it.number, self.modes[0])
            place = it.end
        return marked + text[place:], numbers


def lines_of(path):
    """The lines of a file, each as its hint and the bytes of its text."""
    with open(path, "rb") as file:
        parted = [line.partition(b"\t") for line in file.read().removesuffix(b"\n").split(b"\n")]
    if not all(tab for _, tab, _ in parted):
        sys.exit(f"a line of {path} has no tab")
    return [(hint.decode(), text) for hint, _, text in parted]


def main(words):
    if len(words) != 2 or words[0].startswith("-"):
        print(__doc__)
        sys.exit(0 if words in (["--help"], ["-h"]) else 2)
    library = Library(words[0])
    for line in lines_of(words[1]):
        answer = library.answer(*line)
        print("\t".join(["error", answer["refusal"]] if "refusal" in answer else ["ok", *answer.values()]))


if __name__ == "__main__":
    main(sys.argv[1:])
