"""Whether numbers lie within the premises of the laws of libphonenumber's rules (phone_library_laws, and of
phone_engine::dialled) and of what is typed (phone_typed), decided on the records of a table and not by reading a text. Names are
those of the definitions."""
import functools
import json
import re
import typing
import unicodedata

MOST_CHARACTERS = 250
# The id of a code without a region.
NO_REGION = "001"
# How many digits of an extension each preferred prefix announces (phone_library_laws::reach::prefixes).
ANNOUNCED = {" ext. ": 20, " Anexo ": 20, " x": 9, " int ": 9, " int. ": 9, "#": 9}
PUNCTUATION = set("-x\u2010\u2011\u2012\u2013\u2014\u2015\u2212\u30fc\uff0d\uff0f \xa0\xad\u200b\u2060\u3000")
PUNCTUATION |= set("()\uff08\uff09\uff3b\uff3d.[]/~\u2053\u223c\uff5e")
QUIET = PUNCTUATION - set("x~\uff5e")
SEPARATORS = PUNCTUATION | {"\uff0e"}
# The kinds of numbers, each with a descriptor.
KINDS = ("premium_rate", "toll_free", "shared_cost", "voip", "personal_number", "pager", "uan", "voicemail", "fixed_line",
         "mobile")
# What may stand between keys that are shown.
MARKS = set(" ()-.")


class Told(typing.NamedTuple):
    """A number, and what is printed of it."""

    code: int
    digits: str
    extension: str | None
    carrier: str | None
    region: str | None
    e164: str
    international: str
    national: str
    rfc3966: str
    is_valid: bool


def is_digits(text):
    return all("0" <= c <= "9" for c in text)


def without_front(front, text):
    return text.removeprefix(front) if front is not None else text


@functools.cache
def compiled(pattern):
    return re.compile(pattern, re.VERBOSE | re.ASCII)


def first_match(pattern, digits):
    return None if pattern is None else compiled(pattern).search(digits)


def is_whole_match(pattern, digits):
    found = first_match(pattern, digits)
    return found is not None and found.span() == (0, len(digits))


def at_start(pattern, digits):
    found = first_match(pattern, digits)
    return found is not None and found.start() == 0


def rewritten(found, rule, digits):
    """The digits with a match written anew."""
    written = re.sub(r"\$(?:(\d+)|\{(\d+)\})", lambda mark: found[int(mark[1] or mark[2])] or "", rule)
    return digits[: found.start()] + written + digits[found.end() :]


def after_match(digits, pattern):
    """What follows an international prefix."""
    found = first_match(pattern, digits)
    if found is None or found.start() or digits[found.end() :].startswith("0"):
        return None
    return digits[found.end() :]


class Territory:
    """A record of the table."""

    def __init__(self, record):
        self.record, self.id, self.code = record, record["id"], record["country_code"]
        self.general = record.get("general")
        self.lengths = (self.general or {}).get("possible_length", [])
        self.local = (self.general or {}).get("possible_local_length", [])
        self.parsing, self.rule = record.get("national_prefix_for_parsing"), record.get("national_prefix_transform_rule")
        self.prefix, self.abroad = record.get("national_prefix"), record.get("international_prefix")
        # What is dialled for abroad: nothing where a plus sign is written.
        self.dialled = record.get("preferred_international_prefix") or (
            self.abroad if self.abroad and is_digits(self.abroad) else "")
        self.announcing = record.get("preferred_extension_prefix", " ext. ")
        self.national_layouts = record.get("formats", [])
        self.international_layouts = record.get("international_formats") or self.national_layouts

    def matches_whole(self, digits):
        return self.general is not None and is_whole_match(self.general.get("national_number", ""), digits)

    def is_of(self, kind, digits):
        """By the crate's rules, which look at the front alone, a descriptor has digits."""
        descriptor = self.record.get(kind)
        if descriptor is None:
            return False
        lengths = descriptor.get("possible_length", [])
        return (not lengths or len(digits) in lengths) and at_start(descriptor.get("national_number", ""), digits)

    def length_in(self, count):
        if count in self.local:
            return "local"
        if not self.lengths or count in self.lengths:
            return "possible"
        return "short" if count < self.lengths[0] else "long" if self.lengths[-1] < count else "invalid"

    def left_by_prefix(self, digits):
        """What the national prefix leaves, and the carrier."""
        if self.parsing is None:
            return without_front(self.prefix, digits), None
        found = first_match(self.parsing, digits)
        if found is None or found.start():
            return digits, None
        groups = found.re.groups
        if self.rule is not None and found[groups] is not None:
            return rewritten(found, self.rule, digits), found[1] if groups >= 2 else None
        return digits[found.end() :], found[1] if groups else None

    def strip(self, digits):
        left = self.left_by_prefix(digits)
        return (digits, None) if self.matches_whole(digits) and not self.matches_whole(left[0]) else left

    def stripped(self, digits):
        left = self.strip(digits)
        return left if self.may_be_left(left[0]) else (digits, None)

    def step(self, digits):
        """What the crate's rules cut off in one step leaves, and the carrier."""
        if self.parsing is None:
            return without_front(self.prefix, digits), None
        found = first_match(self.parsing, digits)
        if found is None or found.start():
            return digits, None
        groups = found.re.groups
        if self.rule is not None and found[groups] is not None:
            written = rewritten(found, self.rule, digits)
            if self.is_of("general", digits) and not self.is_of("general", written):
                return digits, None
            return written, found[1] if groups else None
        return digits[found.end() :], found[groups]

    def stripped_by_crate(self, digits):
        national, carrier = self.step(digits)
        national = without_front(self.prefix, national)
        is_short = len(national) not in self.local and self.lengths != [] and len(national) < self.lengths[0]
        return (digits, None) if is_short else (national, carrier)

    def belongs(self, digits):
        """Whether by the crate's rules digits belong to the territory."""
        leading = self.record.get("leading_digits")
        if leading is not None:
            return at_start(leading, digits)
        return self.is_of("general", digits) and any(self.is_of(kind, digits) for kind in KINDS)

    def dialled_for(self, digits):
        """The national number that digits are dialled for by IsDialledFor, alone or behind the national prefix; none where they
        are for none."""
        is_front = self.prefix is not None and digits.startswith(self.prefix)
        found = first_match(self.parsing, digits)
        is_matched = found is not None and found.start() == 0
        if not is_front:
            return None if is_matched else digits
        national = digits[len(self.prefix) :]
        alone = self.parsing is None or (is_matched and found.end() == len(self.prefix) and found.re.groups > 0
                                         and found[1] is None and found[found.re.groups] is None)
        return national if (alone and not national.startswith(self.prefix) and self.may_be_left(national)
                            and (self.matches_whole(national) or not self.matches_whole(digits))) else None

    def may_be_left(self, digits):
        """So many digits may be left."""
        return self.length_in(len(digits)) in ("possible", "long")

    def has_code(self, digits):
        """Digits begin with the code, and are a number only without it, or too long."""
        code = str(self.code)
        if not digits.startswith(code):
            return False
        behind = self.strip(digits[len(code) :])[0]
        return ((not self.matches_whole(digits) and self.matches_whole(behind)) or self.length_in(len(digits)) == "long")


def suits(digits, layout):
    leading = layout.get("leading_digits", [])
    return not leading or (at_start(leading[-1], digits) and is_whole_match(layout["pattern"], digits))


def is_laid_out(between, text, digits):
    """Digits, and between them, and before them, such characters."""
    return (all("0" <= c <= "9" or c in between for c in text) and "".join(filter(is_digits, text)) == digits
            and text[-1:].isascii() and text[-1:].isdigit())


def are_nd(text):
    return text != "" and all(unicodedata.category(c) == "Nd" for c in text)


class Table:
    """A table of numbering plans, and the premises of its numbers."""

    def __init__(self, path):
        with open(path, encoding="utf-8") as file:
            self.territories = [Territory(record) for record in json.load(file)]
        self.by_id = {t.id: t for t in self.territories}
        self.codes = {t.code for t in self.territories}
        texts = [str(code) for code in self.codes]
        self.is_prefix_free = not any(a != b and b.startswith(a) for a in texts for b in texts)
        self.firsts = {code: self.first_of(code) for code in self.codes}

    def first_of(self, code):
        """A code's first territory."""
        return self.of_code(code)[0]

    def of_code(self, code):
        """A code's territories: the main ones, latest first, then the others."""
        of_code = [t for t in self.territories if t.code == code]
        main = [t for t in of_code if t.record.get("main_country_for_code")]
        return main[::-1] + [t for t in of_code if t not in main]

    def shortest(self, digits):
        if digits.startswith("0"):
            return None
        return next((int(digits[:k]) for k in (1, 2, 3) if int(digits[:k] or 0) in self.codes), None)

    def is_coded(self, n):
        """IsCoded."""
        return (self.is_prefix_free and n.code in self.codes and 1 <= n.code <= 999 and 2 <= len(n.digits) <= 17
                and int(n.digits) < 2**56)

    def is_settled(self, n):
        """IsSettled."""
        return self.is_coded(n) and self.firsts[n.code].stripped(n.digits) == (n.digits, None)

    def laid_out(self, n, text):
        """The number laid out, without code and extension."""
        first = self.firsts[n.code]
        behind = first.announcing + n.extension if n.extension is not None else ""
        if not text.endswith(behind):
            raise ValueError(f"{text} doesn't end in {behind}")
        return text[: len(text) - len(behind)].removeprefix(f"+{n.code} ")

    def is_announced(self, n):
        """IsAnnouncedIfAny."""
        most = ANNOUNCED.get(self.firsts[n.code].announcing, 0)
        return n.extension is None or (are_nd(n.extension) and len(n.extension) <= most)

    def is_plain_international(self, n):
        """IsPlainInternational."""
        laid = self.laid_out(n, n.international)
        return is_laid_out(QUIET, laid, n.digits) and self.is_announced(n) and len(n.international) <= MOST_CHARACTERS

    def is_plain_rfc3966(self, n):
        """IsPlainRfc3966: the layout is that of the international text."""
        laid = self.laid_out(n, n.international)
        return (is_laid_out(SEPARATORS, laid, n.digits) and len(n.rfc3966) <= MOST_CHARACTERS
                and (n.extension is None or (are_nd(n.extension) and len(n.extension) <= 20)))

    def is_back_from_international(self, n):
        """The premises of international_again."""
        return self.is_settled(n) and self.is_plain_international(n)

    def is_back_from_rfc3966(self, n):
        """The premises of rfc3966_again."""
        return self.is_settled(n) and self.is_plain_rfc3966(n)

    def is_plain_national(self, n):
        """IsPlainNational, inside the number's region."""
        return self.is_plain_in(n, n.region)

    def is_plain_in(self, n, region):
        """IsPlainNational, inside a region."""
        inside = self.by_id.get(region)
        if inside is None:
            return False
        laid = self.laid_out(n, n.national)
        keys = "".join(filter(is_digits, laid))
        enough = len(keys) >= 3 or (len(keys) == 2 and laid.endswith(keys) and n.extension is None)
        return (is_laid_out(QUIET, laid, keys) and self.is_announced(n) and len(n.national) <= MOST_CHARACTERS
                and inside.code == n.code and enough and after_match(keys, inside.abroad) is None
                and not inside.has_code(keys) and inside.stripped(keys)[0] == n.digits and 2 <= len(n.digits) <= 17)

    def is_dialled_again(self, n, region):
        """The premises of dialled_again."""
        start = self.by_id[region]
        if start.code == n.code:
            return self.is_plain_in(n, region)
        return self.is_back_from_international(n) and (start.dialled == "" or self.is_after_prefix(n, start))

    def is_after_prefix(self, n, start):
        """IsAfterPrefix, and the text isn't too long."""
        found = first_match(start.abroad, f"{start.dialled}{n.code}{n.digits}")
        return (found is not None and found.span() == (0, len(start.dialled)) and is_digits(start.dialled)
                and len(start.dialled) + len(n.international) <= MOST_CHARACTERS)

    def is_shown(self, n, layouts, laid, keys):
        """IsPlain of phone_typed: the layout that prints the number shows these keys."""
        layout = next((it for it in layouts if suits(n.digits, it)), None)
        return (n.extension is None and n.carrier is None and layout is not None
                and is_whole_match(layout["pattern"], n.digits)
                and all("0" <= c <= "9" or c == "+" or c in MARKS for c in laid)
                and "".join(c for c in laid if c not in MARKS) == keys and min(len(n.digits), len(keys)) >= 3)

    def is_plain_abroad(self, n):
        """IsPlainAbroad."""
        first = self.firsts[n.code]
        return (self.shortest(f"{n.code}{n.digits}") == n.code
                and self.is_shown(n, first.international_layouts, self.laid_out(n, n.international), n.digits))

    def national_keys(self, n):
        return "".join(c for c in n.national if "0" <= c <= "9" or c == "+")

    def is_plain_at_home(self, n):
        """IsPlainAtHome, in the number's region."""
        hinted = self.by_id.get(n.region)
        if hinted is None:
            return False
        inside, keys = self.firsts[hinted.code], self.national_keys(n)
        return (keys != "" and keys[0] != "+" and inside.step(keys)[0] == n.digits
                and self.is_shown(n, inside.national_layouts, self.laid_out(n, n.national), keys))

    def home(self, code, digits):
        """The territory that digits belong to by the crate's rules."""
        of_code = self.of_code(code)
        if len(of_code) == 1:
            return of_code[0] if of_code[0].id == NO_REGION else self.by_id[of_code[0].id]
        found = next((t.id for t in of_code if self.by_id[t.id].belongs(digits)), None)
        return None if found in (None, NO_REGION) else self.by_id[found]

    def is_settled_alike(self, n):
        """IsSettledAlike."""
        if not self.is_settled(n) or not int(n.digits):
            return False
        home = self.home(n.code, n.digits.lstrip("0"))
        return home is None or home.stripped_by_crate(n.digits) == (n.digits, None)

    def coded_alike(self, inside, has_plus, digits):
        """IsCodedAlike: both rules find one code, told so, and what follows it; none where it isn't. The code itself is none
        where neither rules find one."""
        after = None if inside is None else after_match(digits, inside.abroad)
        if has_plus:
            code = self.shortest(digits) if after is None else None
            return code and ("plus", code, digits[len(str(code)) :])
        if after is not None:
            code = self.shortest(after)
            return len(after) > 2 and ("idd", code, after[len(str(code)) :] if code else "")
        is_own = inside is not None and not digits.startswith(str(inside.code))
        return is_own and ("default", inside.code, digits)

    def is_read_alike(self, hint, has_plus, digits):
        """IsReadAlike, of ASCII digits; `-` is no hint."""
        inside = self.by_id.get(hint)
        coded = len(digits) >= 3 and len(digits) + has_plus <= MOST_CHARACTERS and self.coded_alike(inside, has_plus, digits)
        if not coded:
            return False
        source, code, rest = coded
        if code is None:
            return True
        by_crate = inside if hint != "-" else self.home(code, rest.lstrip("0"))
        by_library = inside if source == "default" else self.firsts[code]
        left = by_library.stripped(rest)
        return (len(rest) >= 2 and left == (by_crate.stripped_by_crate(rest) if by_crate else (rest, None))
                and left[0].strip("0") != "")

    def is_home_number(self, hint, digits):
        """IsHomeNumber, of which those under a hint without national prefix and parsing pattern are IsOwnNumber."""
        inside = self.by_id[hint]
        national = inside.dialled_for(digits)
        return (national is not None and national.strip("0") != "" and 3 <= len(digits) <= MOST_CHARACTERS
                and after_match(digits, inside.abroad) is None and not digits.startswith(str(inside.code)))
