"""Random lines for the second reading, each a hint and a text: what tools/fuzz --rules library asks of two programs; and random running
texts with such lines in them, for tools/fuzz --find.

Most of the texts are made from a record's own patterns: a number that one of its descriptors takes, behind its prefixes or its
code, with what libphonenumber's rules tell apart: each form of an extension, `;phone-context=` and `;isub=`, letters of the
keypad, digits of other scripts, second numbers, a plus sign before what is no code. A part of them is then changed a little;
the others are of any characters, or about as long as a text may be. A line depends on the seed, its database's place and its own.

The random databases have closed patterns alone, as data/world.json has, of digits, and else what that table hasn't: several
records of an id or a code, empty lists of lengths, codes that begin others, leading digits that nothing has. No line has a character that this Python's Unicode leaves unassigned.
"""
import json
import unicodedata

import random_rows as rows

try:
    from re import _parser as parser
except ImportError:  # before Python 3.11
    import sre_parse as parser

DIGITS = "0123456789"
# A pattern's open repetition is drawn so often at most beyond its least.
MOST_REPEATED = 3

# What an extension is written with: what stands before a label, labels, what stands behind one.
BLANKS = (" ", " ", "\u00a0", "\t", ",", "-", "\u3000")
LABELS = (
    "ext", "xt", "extn", "xtn", "extensio", "extension", "extensi\u00f3n", "extensio\u0301n", "EXTENSI\u00d3", "\uff45\uff58\uff54\uff4e",
    "\uff58\uff54", "\u0434\u043e\u0431", "\u0414\u041e\u0411", "anexo", "ANEXO", "x", "X", "\uff58", "\uff38", "#", "\uff03", "~", "\uff5e",
    "int", "INT", "\uff49\uff4e\uff54", "e\u017ft", "ex\u0074", "\u0130nt", "\u0131nt", ",,", ";", ",", ",,,", "-", " ", ";ext=", ";EXT=",
    "e", "ensi", "in", "xx", "##", "ext ext",
)
AFTERS = (":", ".", "\uff0e", "", "", "", "::", " :")
# The greatest counts of digits in the forms, which are drawn with their neighbours.
MOST_DIGITS = (1, 2, 4, 6, 7, 9, 10, 15, 16, 20, 21)
# Contexts of `tel:` texts beside those with digits.
CONTEXTS = (
    "example.com", "a", "a.", ".", "a..b", "1a", "a1", "a-b.c-d", "-a", "a-", "1.a", "a.1", "\u00e9.com", "+", "+-", "+.1", "+(64)", "+64x",
    "", " +64", "+ 64", "\uff0b64", "A.B.", "x" * 60,
)
ISUBS = (";isub=12", ";isub=", ";isub", ";ISUB=1", "isub=1", ";isub=1;ext=3")
SECONDS = ("/x", "/ x", "\\ x", "/  x1", "/y", " / ", "\\", "/\tx", "//x", "/X")
# Letters by which a text has three of them, and some that only look so.
WORDS = ("ABC", "flowers", "TAXI", "ab", "a\u00e9b", "\u212aex", "\uff21\uff22\uff23", "abcDEF", "z z z")
# Of so many characters a text may be at most.
MOST = 250
NOT_LISTED = ("0", "00", "999", "210", "2", "9", "00", "011")


def drawn(rng, items):
    """Digits that a part of a pattern takes, where it is of digits alone."""
    text = ""
    for kind, of in items:
        name = str(kind)
        if name == "LITERAL":
            text += chr(of)
        elif name == "IN":
            text += rng.choice([c for c in DIGITS if is_in(ord(c), of)] or ["0"])
        elif name.endswith("REPEAT"):
            least, most, part = of
            text += "".join(drawn(rng, part) for _ in range(rng.randint(least, min(int(most), least + MOST_REPEATED))))
        elif name == "SUBPATTERN":
            text += drawn(rng, of[-1])
        elif name == "BRANCH":
            text += drawn(rng, rng.choice(of[1]))
    return text


def is_in(number, parts):
    """Whether a class of a pattern has a digit of this number."""
    for kind, of in parts:
        name = str(kind)
        if name == "LITERAL" and number == of or name == "RANGE" and of[0] <= number <= of[1] or name == "CATEGORY":
            return True
    return False


class Record:
    """A record of the table, from which texts are made."""

    def __init__(self, made):
        self.id, self.code = made["id"], made["country_code"]
        of = [it["national_number"] for it in made.values() if isinstance(it, dict)]
        self.numbers = [parser.parse(it) for it in of]
        self.national = [parser.parse(made[name]) for name in ("national_prefix", "national_prefix_for_parsing") if made.get(name)]
        self.international = parser.parse(made.get("international_prefix") or "00")

    def territory(self, rng):
        """What random_rows makes a text from, drawn for one text."""
        prefix = drawn(rng, rng.choice(self.national)) if self.national else ""
        number = drawn(rng, rng.choice(self.numbers))
        return rows.Territory(self.id, self.code, [number], prefix, drawn(rng, self.international))


def some(rng, texts, most):
    """Up to so many of these texts."""
    return "".join(rng.choice(texts) for _ in range(rng.randrange(most + 1)))


def scripted(rng, digits):
    """Digits, mostly as they are, else in another script, or each in any."""
    if not rows.one_in(rng, 6):
        return digits
    zero = ord(rng.choice(rows.ZEROS))
    is_mixed = rows.one_in(rng, 3)
    return "".join(chr((ord(rng.choice(rows.ZEROS)) if is_mixed else zero) + int(c)) for c in digits)


def digits_near(rng, most):
    """As many digits as this, or one more or less, or any fewer."""
    count = rng.choice((most - 1, most, most + 1, rng.randint(1, most)))
    return scripted(rng, "".join(rng.choice(DIGITS) for _ in range(count)))


def extension(rng):
    """What is an extension, or nearly one."""
    after = rng.choice(AFTERS) + some(rng, BLANKS, 2)
    end = rng.choice(("", "", "", "#", "##", ".", " "))
    return some(rng, BLANKS, 2) + rng.choice(LABELS) + after + digits_near(rng, rng.choice(MOST_DIGITS)) + end


def context(rng, record):
    """A parameter that says where a number is one, mostly rightly."""
    choice = rng.randrange(4)
    of = f"+{record.code}" if choice < 2 else "+" + rows.parted(rng, str(record.code), ("-", ".", "(", ")", " "))
    return ";phone-context=" + (rng.choice(CONTEXTS) if choice == 3 else of)


def after_plus(rng, territory):
    """A plus sign before what may be no code, and a number."""
    front = rng.choice((rng.choice(NOT_LISTED), territory.international_prefix + str(territory.code), territory.national_prefix, ""))
    return rng.choice(rows.PLUSES) * rng.randint(1, 2) + front + rows.digits_for(rng, territory)


def lettered(rng, territory):
    """A number with letters of the keypad."""
    front, number = rng.choice(("", "+", f"+{territory.code} ")), rows.digits_for(rng, territory)
    place = rng.randrange(len(number) + 1)
    return front + number[:place] + rng.choice(WORDS) + number[place:]


def longest(rng, territory):
    """A text about as long as one may be."""
    text = rows.plus(rng, territory)
    return text + rng.choice((" ", "-", "0", "x", "a", ".")) * (rng.randint(MOST - 4, MOST + 3) - len(text))


def great(rng, territory):
    """A national number of about as many digits as a value holds."""
    value = (1 << 56) + rng.choice((-1, 0, 1, rng.randrange(-10 ** 16, 10 ** 16)))
    return f"+{territory.code}" + "0" * rng.randrange(3) + str(value)[:rng.choice((16, 17, 17, 17))] + rng.choice(("", "", "0"))


def short(rng, _territory):
    """A few digits, perhaps parted."""
    return rows.parted(rng, "".join(rng.choice(DIGITS) for _ in range(rng.randint(1, 6))), rows.PARTINGS)


FORMS = (*rows.FORMS, after_plus, after_plus, lettered, lettered, longest, great, short)
# Of so many texts each has, by chance, one of these behind it.
ENDS = ((4, lambda rng, _: extension(rng)), (24, lambda rng, _: extension(rng)), (12, context), (24, lambda rng, _: rng.choice(ISUBS)),
        (24, lambda rng, _: rng.choice(SECONDS) + rng.choice(DIGITS)), (24, lambda rng, _: rng.choice(rows.ENDS)))


def hint_for(rng, records, record, form):
    """A hint: mostly the record's own region, `-` for none."""
    choice = rng.randrange(16)
    if choice < 2 or choice >= 9 and form in rows.TELL_CODE:
        return "-"
    region = (rng.choice(records) if choice < 4 else record).id
    return "-" if region == "001" else region


def known(text):
    """The text, with U+FFFD in place of what this Python's Unicode leaves unassigned, and the port's, a newer one, may have as a letter."""
    return "".join("\ufffd" if unicodedata.category(c) == "Cn" else c for c in text)


def line(seed, database, place, records):
    """The hint and the text at a place under the database of a place, which has no line feed."""
    rng = rows.source(seed, "line", database, place)
    record, form = rng.choice(records), rng.choice(FORMS)
    if form is rows.run and not rows.one_in(rng, 4):
        form = rows.national
    text = rng.choice(rows.FRONTS) if rows.one_in(rng, 12) else ""
    text += form(rng, record.territory(rng))
    for count, end in ENDS:
        text += end(rng, record) if rows.one_in(rng, count) else ""
    if rows.one_in(rng, 4):
        for _ in range(rng.randint(1, 3)):
            text = rows.edited(rng, text)
    return hint_for(rng, records, record, form), known(text.replace("\n", " "))


# ------------------------------------------------------------------ running texts

LENIENCIES = ("POSSIBLE", "VALID", "VALID", "STRICT_GROUPING", "EXACT_GROUPING")
# What stands between numbers, and what isn't one, with digits.
BETWEEN = (
    " ", " ", ", ", "; ", " / ", "/", " or ", "\n", " (", ") ", ". ", " - ", "\u2013", "\u3000", "\u3001", "[", "]", "\uff08", "\uff09 ", "%", "\u20ac", "x", " x", "a",
    "\u00e9", "\u0301", "\u044f", "\u4e2d", "\t", "\\", " \\ x", "#", ":", "_", "*", "+", "~", "  ", " \u00a0",
)
OTHERS = (
    "3/10/2011", "10-03-1984", "2012-01-02 08:00", "2012 08:00", "1/12/2011 14:05", "12-34 (5)", "1-23 (456", "24/7", "17:30", "$12.50", "100%", "No. 4",
    "Room 5", "ISBN 978-4-2501", "4111 1111 1111 1111", "1.5", "192.168.0.1", "1)", "(2)", "a1b2", "x",
)


def grouped(rng, digits):
    """Digits in groups, with one sign between them or with several."""
    sign = rng.choice((" ", "-", ".", "/", ") ", "\u2010", "\uff0d", " - "))
    out = digits[:1]
    for digit in digits[1:]:
        out += (sign if rows.one_in(rng, 3) else "") + digit
    return out


def found_piece(rng, record):
    """A part of a running text: a number in some form, or what isn't one."""
    choice = rng.randrange(8)
    if choice < 3:
        return rng.choice(FORMS)(rng, record.territory(rng))[:60]
    if choice < 6:
        territory = record.territory(rng)
        front = rng.choice((f"+{record.code} ", f"+{record.code}", territory.national_prefix, "(" + territory.national_prefix, ""))
        return front + grouped(rng, rows.digits_for(rng, territory)) + (extension(rng) if rows.one_in(rng, 5) else "")
    return rng.choice(OTHERS)


def running(seed, place, records):
    """The hint, the leniency and the running text at a place."""
    rng = rows.source(seed, "running", place)
    record = rng.choice(records)
    text = rng.choice(BETWEEN) if rows.one_in(rng, 4) else ""
    for _ in range(rng.randint(1, 4)):
        text += found_piece(rng, record) + some(rng, BETWEEN, 2)
    if rows.one_in(rng, 3):
        for _ in range(rng.randint(1, 3)):
            text = rows.edited(rng, text)
    hint = "-" if rows.one_in(rng, 10) or record.id == "001" else record.id
    return hint, rng.choice(LENIENCIES), known(text)


# ------------------------------------------------------------------ databases

IDS = ("NZ", "US", "FR", "CA", "GB", "IT", "BR", "NZ", "001")
CODES = (1, 1, 7, 12, 39, 44, 64, 64, 376, 37, 999)
# What is dialled before a national number, each with the transform rules that it allows: rules of digits
# alone, and none where no group is, for which the rules leave open what holds.
PARSING = (
    ("0", ("", "")), ("0?", ("",)), ("(0)|(1)", ("$1", "$2", "5$2")), (r"0(?:(1[245])(\d{4}))?", ("9$2", "$1", "$1$2")),
    ("0(?:(1)|(2))", ("$1", "$2")), (r"9(\d+)", ("$1", "8$1", "")), (r"0(\d{2})?", ("$1", "7$1")), ("00|0", ("",)),
    (r"(\d{2,})0", ("$1",)), ("()0", ("$1", "1$1")), (r"(?:0|)(\d*)", ("$1", "0$1")), (r"(\d)(\d)(\d)", ("$3$2$1", "$1", "0$1")),
    (r"([2-9]\d{3})$|1", ("64$1", "0$1")), (r"(1\d)+", ("$1",)), ("0(0)?1?", ("$1", "")),
)
# No pattern is empty: one that is matches at the front, and the rules leave open whether it is one.
INTERNATIONAL = ("00", "00", "011", "0(?:0|11)", "00[39]", r"\d{3}", "0+", "0|00", "(?:0{1,2})+", "1", "00?")


def closed(rng, pieces):
    """A closed pattern of so many pieces, and digits that it was made for."""
    drawn_pieces = [rng.choice(rows.PLAIN_PIECES) for _ in range(pieces)]
    return f"(?:{''.join(text for text, _ in drawn_pieces)})$", rows.digits_of(rng, "".join(shape for _, shape in drawn_pieces))


def descriptor(rng, pattern, size):
    """A descriptor of this pattern, and of this and some other lengths."""
    lengths = {size, *(size + rng.randint(-3, 3) for _ in range(rng.randrange(3)))}
    made = {"national_number": pattern, "possible_length": sorted(it for it in lengths if it > 0)}
    if rows.one_in(rng, 8):
        made["possible_length"] = []
    if rows.one_in(rng, 4):
        made["possible_local_length"] = sorted({rng.randint(2, 9) for _ in range(rng.randint(1, 2))})
    return made


def made_record(rng, code):
    """A record with this calling code."""
    pattern, digits = closed(rng, rng.randint(2, 5))
    record = {"id": rng.choice(IDS), "country_code": code, "general": descriptor(rng, pattern, len(digits))}
    for kind in rows.KINDS:
        if rows.one_in(rng, 2 if kind in ("fixed_line", "mobile") else 6):
            own = (pattern, digits) if rows.one_in(rng, 2) else closed(rng, rng.randint(1, 5))
            record[kind] = descriptor(rng, own[0], len(own[1]))
    if not rows.one_in(rng, 6):
        record["international_prefix"] = rng.choice(INTERNATIONAL)
    if not rows.one_in(rng, 4):
        record["national_prefix"] = rng.choice(("0", "1", "8", "06"))
    if rows.one_in(rng, 2):
        record["national_prefix_for_parsing"], transforms = rng.choice(PARSING)
        if rows.one_in(rng, 2):
            record["national_prefix_transform_rule"] = rng.choice(transforms)
    if rows.one_in(rng, 3):
        record["leading_digits"] = digits[:rng.randrange(4)] if rows.one_in(rng, 2) else closed(rng, 1)[0][3:-2]
    if rows.one_in(rng, 3):
        record["main_country_for_code"] = True
    return record


def database(seed, place):
    """The text of the database at a place: of one to six records, mostly of one or two codes."""
    rng = rows.source(seed, "closed", place)
    first, second = rng.choice(CODES), rng.choice(CODES)
    return json.dumps([made_record(rng, rng.choice((first, first, second, rng.randrange(1, 1000)))) for _ in range(rng.randint(1, 6))])
