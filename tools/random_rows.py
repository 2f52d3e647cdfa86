"""Random databases, texts and numbers, as rows of calls: what tools/fuzz asks of two programs.

The databases are hostile ones: of empty patterns, nested repetitions, anchors, letters, templates with every mark, codes 0
and 65535, thousands of lengths, several records of one id or code; about one in seven has a fault. Most of the texts are
made from a record's own code, prefixes and digits, and a part of them is then changed a little; the others are of any
characters, or very long. The numbers are made of parts, also such as no text is read as, and some whose calling code no
record has.

A database depends on the seed and its place alone, a text and a number on the seed, the place of their database and their own.
"""
import dataclasses
import json
import random

# ------------------------------------------------------------------ characters, each class that a reader tells apart

PLUSES = "+++++++\uff0b"
PUNCTUATION = (
    "-x\u2010\u2011\u2012\u2013\u2014\u2015\u2212\u30fc\uff0d\uff0f \u00a0\u00ad\u200b\u2060\u3000()\uff08\uff09\uff3b\uff3d"
    ".[]/~\u2053\u223c\uff5e*\uff0e"
)
LETTERS = "acfilopqsuxzAENTXZetn\u00e9\u00df\u017f\u212a\u00f3\u00d3\uff58\uff25\u4e00"
DIGITS = (
    "0129\uff10\uff19\u0660\u0669\u06f5\u07c3\u0966\u09e7\u0be6\u0e51\u0ed9\U0001d7ce\U0001d7ff\U000104a0"
    "\u00bd\u00b2\u2167\u2460"  # numbers that are no digits
)
BLANKS = "  \t\n\r\u000b\u00a0\u1680\u2003\u2009\u2028\u202f\u3000\ufeff"
CONTROLS = "\0\1\7\b\u001b\u001f\u007f\u0080\u0085\u009f\u200e\u200f\u202e\u0301"
# Characters past the first plane, and the last ones of planes.
FAR = "\U00010000\U0001f4a9\U0001f4de\U0001d400\U00020000\U000e0031\ufffd\uffff\ud7ff\U0010ffff"
# What means something in a text: to parameters, extensions, second numbers.
SIGNS = ";;=:##,\\/+\uff0b%&$!'_\"<@?|\uff03\uff1b"
CLASSES = (DIGITS, PUNCTUATION, LETTERS, BLANKS, CONTROLS, FAR, SIGNS)

# What parts the digits of a number, and those of a `tel:` text.
PARTINGS = (
    " ", " ", " ", "-", "-", "-", ".", "/", "(", ")", ") ", " (", "x", "~", "\u2013", "\u00a0", "\u3000", "\uff0d",
    "\u30fc", "*",
)
TEL_PARTINGS = ("-", "-", "-", ".", "(", ")")
# The zeros of scripts in which digits are written.
ZEROS = "0\uff10\u0660\u0966\U0001d7ce"

# ------------------------------------------------------------------ pieces of records

# Ids of territories. The last three are ids of no region.
IDS = ("NZ", "US", "FR", "CA", "GB", "IT", "NZ", "001", "QQ", "\u00e9\"\\\t")
NO_REGIONS = IDS[-3:]
# Calling codes, of which some begin others, and such as are found in no digits.
CODES = (1, 1, 7, 12, 33, 37, 39, 44, 64, 64, 64, 376, 377, 999)
ODD_CODES = (0, 0, 65535, 1000, 1234)
KINDS = (
    "fixed_line", "mobile", "toll_free", "premium_rate", "shared_cost", "personal_number", "voip", "pager", "uan",
    "emergency", "voicemail", "short_code", "standard_rate", "carrier", "no_international",
)

# Pieces of patterns, each with digits that it was made for: in these `#` is any digit. First those of real tables.
PLAIN_PIECES = (
    (r"\d", "#"), (r"\d{2}", "##"), (r"\d{3}", "###"), (r"\d{4}", "####"), (r"\d{2,4}", "###"), ("[2-9]", "5"),
    (r"[2-9]\d{2}", "6##"), (r"[1-9]\d{3,5}", "7####"), ("[13-57]", "4"), ("3", "3"), ("60", "60"),
    (r"(?:21|3\d|4)", "38"), (r"(?:1[245]|2[0-35-9])\d", "23#"), ("0?[1-9]", "8"),
)
# Rare ones: empty ones, nested repetitions, anchors, classes beyond ASCII, letters, white space, comments.
RARE_PIECES = (
    ("", ""), ("()", ""), ("(?:)", ""), (r"(\d)", "#"), (r"(\d)?", "#"), (r"(?:\d{1,2}){2,3}", "####"),
    (r"(?:\d+)+", "###"), (r"(?:[1-9]\d?)+?", "4#"), (r"(?:(?:\d\d)+|\d)+", "###"), (r"(?:(?:(?:\d)+)+)+", "##"),
    (r"(?:\d{2}){0,3}", "####"), (r"\d+?", "##"), (r"\d*", "###"), (r"\d??", "#"), (r"\d{1,3}?", "##"), (r"\d{0}", ""),
    ("(?:7|)", "7"), ("(?:|8)", "8"), ("(?:1|12|123)", "123"), ("[\u0660-\u06695]", "5"), ("[\uff10-\uff197]", "7"),
    ("[\u00e0-\u00ff6]", "6"), ("[^0]", "9"), ("[^\u00e0\\s]", "4"), (r"[\d]{2}", "##"), ("[3 4]", "3"), (".", "#"),
    (r"\w", "#"), (r"\W?", ""), (r"\D*", ""), (r"\s*", ""), (r"\p{Nd}", "#"), (r"\p{L}?", ""), (r"(?:ab|\d{2})", "##"),
    ("[a-z]?", ""), (r"(?i:k|\d)", "#"), (r"\u0033", "3"), (r"\+?", ""), ("^", ""), ("$", ""), (r"\b", ""), (r"\B", ""),
    (" \\d # two\n \\d", "##"), ("\u0661?", ""),
)
PATTERN_FRONTS = ("^", r"\A", r"\b", "(?:")

# Patterns of what is dialled before a calling code, and of what is dialled before a national number.
INTERNATIONAL = (
    ("00", "00"), ("00", "00"), ("011", "011"), ("0(?:0|11)", "011"), ("00[39]", "003"), (r"(?:00|\+)", "00"),
    (r"\d{3}", "###"), ("0+", "00"), ("(0)(0)", "00"), ("00$", "00"), ("^00", "00"), ("0|00", "00"), ("x", "9"),
    ("[\u06600]0", "00"), ("(?:0{1,2})+?", "00"), ("", ""),
)
NATIONAL = (
    ("0", "0"), ("0", "0"), ("0?", "0"), ("", ""), (r"0(?:(1[245])(\d{4}))?", "0125678"),
    (r"0(?:(1[245])(\d{4}))?", "0"), ("(0)|(1)", "1"), (r"(?:(0)|1)(\d)?", "17"), ("0(?:(1)|(2))", "02"),
    (r"9(\d+)", "9###"), (r"0(\d{2})?", "0##"), ("[01](?:(2)|(3))?", "13"), (r"(\d)" * 9, "#########"),
    ("0" + r"(\d?)" * 9, "0#"), (r"(?P<a>0)(?P<b>\d)", "0#"), ("^0", "0"), ("0$", "0"), (r"0\B", "0"), ("00|0", "00"),
    (r"(\d{2,})0", "##0"), ("()0", "0"), ("0()", "0"), (r"(?:0|)(\d*)", "0##"), ("x|0", "0"), ("[\u06600]", "0"),
    (" 0 # trunk\n", "0"), (r"(?:(\d)\d?)+", "##"), (r"(1\d)+?", "1#"),
)
NATIONAL_PREFIXES = ("0", "0", "0", "1", "8", "00", "07", "", "06", "x", "\u00e9", "11")
PREFERRED_PREFIXES = ("00", "8~10", "\"\\\n")
EXTENSION_PREFIXES = (
    " ext. ", " ext ", " extn. ", " anexo ", " int ", " x", " e ", "", "#", ";ext=", "0", "\U0001f4de",
)

# Patterns that part digits into groups.
GROUPS = (
    r"(\d{3})(\d{3})", r"(\d)(\d{3})(\d{4})", r"(\d{2})(\d{3,4})", r"(\d{1,3})(\d{2,})", r"(\d)" * 9, r"(\d?)" * 9,
    r"(\d*)", r"(\d+)", r"(\d+?)(\d*)", "", r"\d{8}", r"(\d{2})?(\d{3})", r"(?:(\d{2})|(\d{3}))(\d+)", r"((\d)\d)(\d+)",
    r"(?P<a>\d{2})(?P<x>\d+)", r"^(\d{2})(\d+)$", r"(\d{2})\b", r"(\d)+", r"(?:(\d)\d?)+", r"()(\d+)",
    "(\\d{2}) # area\n (\\d+)", r"([2-9])(\d\d)??(\d+)", "([\u0660-\u0669\\d]{2})(.*)", r"(x)|(\d{4})",
)
# The marks of templates, right and wrong ones, and what may stand between them.
MARKS = (
    "$1", "$2", "$3", "$4", "$5", "$6", "$7", "$8", "$9", "$0", "$1", "$2", "${1}", "${2}", "${9}", "${10}", "$11",
    "$1a", "$a", "${a}", "${+1}", "${}", "${", "$", "$$", "$NP", "$FG", "$CC", "$\u0661", " ", "-", "/", "(", ") ", "x",
    "~", "\uff0e", "0", "+", "\U0001f4de\t",
)
TEMPLATES = (
    "$1 $2 $3", "$1 $2", "($1) $2-$3", "$1-$2-$3", "$1/$2/", "$2 $1", "$1 $2 $3 $4", "${1}x$2", "number",
    "$1$2$3$4$5$6$7$8$9", "$1", "$2 15-$3-$4",
)
# Rules that write a national prefix or a carrier into a template, and such as write digits anew behind what was dialled.
RULES = (
    "$NP$FG", "($NP$FG)", "$NP $FG", "$FG", "0$FG", "$NP", "$CC $FG", "$NP $CC ($FG)", "$FG$CC$NP", "$1", "9", "",
    "$FG1", "$NPCC$FGNP",
)
TRANSFORMS = (
    "$1", "$2", "5$2", "+0$1", "0$1$2", "${1}9", "", "$9$8$7$6$5$4$3$2$1", "$0", "a$1", "$$1", "\u00e9$1", "$1$1",
    "7$1", "9${2}", "$",
)

# Keys with a fault of their own. Of a repeated key the last counts.
FAULTS = (
    '"idd":"00"', '"country_code":64.5', '"country_code":65536', '"country_code":-1', '"country_code":"64"',
    '"general":null', '"general":{}', '"general":{"national_number":7}',
    r'"general":{"national_number":"\\d","possible_length":[8,null]}',
    r'"general":{"national_number":"\\d","possible_lengths":[8]}', '"id":null', '"id":1e400', r'"id":"\ud800"',
    '"formats":[{"format":"$1"}]', '"formats":[{"pattern":"1"}]', '"formats":{}', '"main_country_for_code":1',
    '"pager":{}', '"leading_digits":"("', '"national_prefix_for_parsing":"[0"', '"international_prefix":"(?=0)"',
    '"formats":[{"pattern":"*","format":""}]',
)
# Keys that are given twice, without a fault.
REPEATED = (
    '"leading_digits":"(","leading_digits":null', '"country_code":null,"country_code":0',
    r'"id":"n\u007a","id":"\u004eZ","voip":null',
)
# Texts that are no lists of records, or empty ones, and what stands behind a text that was cut. `\udcff` is a byte that is part
# of no text.
WHOLE = ("[]", "", "{}", "null", "[1]", "[{}]", "[null]", "\ufeff[]", " [ ] ", "[],", "[\udcff]")
CUT_ENDS = ("", "}", "]", "\ufeff", '"', ",", "\0", "\udcff")

# ------------------------------------------------------------------ pieces of texts

# What may stand before a number, and behind it: extensions of each form, near misses of them, second numbers.
FRONTS = (" ", "(", "Tel. ", "call: ", "\u200f", "\U0001f4de ", "\n", "fax/")
ENDS = (
    " ext. 12", " ext 302", "ext12", " extn. 4567", " extension 7", " exten\u017fion 5", " extensi\u00f3n 5",
    " EXTENSIO\u0301N 5", " extensin 5", " x5", "x5", " x 302/x2303", " X9", ";ext=7", ";ext=", ";ext=12345678", " 22#",
    "-22#", " - 1#", "#", "##", " #9", "#9#", "~4", " \uff5e 4", ", 8", ",,,8#", ";", "; 3", " int 7", " anexo 3",
    " \uff45\uff58\uff54\uff4e 1", " \uff58\u0661\u0662", "\u3000ext\uff0e\u0661\u0662", " \uff49\uff4e\uff54\uff0e3",
    " ext:\t-1234567#", " ext. 12345678", " ext", " / x123", "\\x5", "/x", " or 555", ".", "..- ..",
)
# Parameters of `tel:` texts, right and wrong ones.
PARAMETERS = (
    ";ext=5", ";ext=1235", ";ext=", ";ext=abc", ";ext=1;ext=22", ";ext=\u0661\u0662", ";EXT=9", ";isub=12",
    ";phone-context=+64", ";phone-context=64", ";phone-context=++1", ";phone-context=", ";phone-context=example.com",
    ";a=%A1", ";=5", ";ext", "; ext=1", ";a=!~*'()[]/:&+$",
)
# What is written again and again.
UNITS = (
    " ", "-", "0", "1", "2", "\u0661", "\uff11", "+", "(", "x", " x", "ext", ";ext=1", ",", "#", "/ x", "\\x", "a",
    "\U0001f4a9", "\t", "~", " 1", "1,", "extensi",
)
# Texts that are near to the border of what is read.
KNOWN = (
    "", " ", "+", "0", "00", "000", "12", "1 2", "tel:", "TEL:12", "tel:+", "tel:+;ext=1", "tel:tel:12",
    ".;phone-context=", "+dwPAA;phone-context=AA", "tel:;phone-context=+", "+1;phone-context=\u00e9\u00e9\u00e9",
    "tel:0;phone-context=+\U00010000", " 2 22#:", "08-PIZZA", "12. March", "1x2x3", "+64 0033316005", "+643331-6005",
    "64(0)64123456", "someletters1110@gmail.com", "000000000000000000000", "+72057594037927936",
)
# Extensions and carriers with marks of templates and of texts.
PARTS = (
    "", "0", "12", "12345678", "$1", "$FG", "$NP$CC", "$", "${", "x5#", ";ext=9", "a\tb\n", "\u0661\U0001f4de", "\"\\",
)
# The least number that is too great for a national number's value.
LEAST_BEYOND = 1 << 56
# Of so many texts one is followed by a number that is made of parts.
TEXTS_FOR_A_NUMBER = 4


def source(*places):
    """A source of random choices for a place; it doesn't depend on what was drawn for other places."""
    return random.Random(" ".join(map(str, places)))


def one_in(rng, count):
    """True once in so many times."""
    return rng.randrange(count) == 0


def any_character(rng):
    """A character of any class, or any one at all."""
    place = rng.randrange(len(CLASSES) + 2)
    if place < len(CLASSES):
        return rng.choice(CLASSES[place])
    if place == len(CLASSES):
        return rng.choice("0123456789")
    number = rng.randrange(0x110000)
    return "\ufffd" if 0xD800 <= number < 0xE000 else chr(number)


# ------------------------------------------------------------------ patterns and templates


def digits_of(rng, shape):
    """Digits of a shape: each `#` as any digit."""
    return "".join(rng.choice("0123456789") if c == "#" else c for c in shape)


def pattern(rng, pieces):
    """A pattern of so many pieces, of which one in four is a rare one, and digits that it was made for.

    The digits need not match it.
    """
    front = rng.choice(PATTERN_FRONTS) if one_in(rng, 12) else ""
    drawn = [rng.choice(RARE_PIECES if one_in(rng, 4) else PLAIN_PIECES) for _ in range(pieces)]
    end = ")" if front == "(?:" else "$" if one_in(rng, 12) else ""
    text = front + "".join(text for text, _ in drawn) + end
    return text, digits_of(rng, "".join(shape for _, shape in drawn))


def leading(rng, numbers):
    """A pattern for the front of digits: the front of some that are there, or any pattern."""
    if one_in(rng, 3):
        return pattern(rng, rng.randrange(3))[0]
    return rng.choice(numbers)[:rng.randrange(4)]


def grouped(rng, digits):
    """A pattern of up to nine groups of digits, parted at random, that takes so many digits as a whole."""
    text = ""
    for _ in range(9):
        size = min(rng.randint(1, 4), digits)
        text += f"(\\d{{{size}}})" if size else ""
        digits -= size
    return text


def template(rng, texts):
    """One of these texts, or sometimes random marks."""
    if one_in(rng, 4):
        return "".join(rng.choice(MARKS) for _ in range(rng.randrange(7)))
    return rng.choice(texts)


# ------------------------------------------------------------------ databases


@dataclasses.dataclass
class Territory:
    """What texts and numbers of a territory are made from."""

    id: str
    code: int
    # Digits that its patterns were made for.
    numbers: list
    # What is dialled before a national number, and before a calling code.
    national_prefix: str = ""
    international_prefix: str = ""

    def region(self):
        """Its id where it is one of a region."""
        return None if self.id in NO_REGIONS else self.id


@dataclasses.dataclass
class Made:
    """A database text, and the territories that texts and numbers are made for."""

    text: str
    territories: list


def lengths(rng, size):
    """A list of lengths: mostly that of the digits, perhaps with others, sometimes a thousand at random, or others alone."""
    choice = rng.randrange(24)
    if choice < 2:
        return ([], None)[choice]
    if choice == 2:
        most = rng.choice((20, 300, 65535))
        return [rng.randint(0, most) for _ in range(1000)]
    if choice < 6:
        return [size + rng.randint(1, 3) for _ in range(rng.randint(1, 2))]
    below = rng.randrange(3)
    less = [max(size - below, 0)] if below else []
    return [*less, size, *(size + rng.randrange(5) for _ in range(rng.randrange(3)))]


def descriptor(rng, text, digits):
    """A descriptor of this pattern, which was made for these digits."""
    made = {"national_number": text, "possible_length": lengths(rng, len(digits))}
    if one_in(rng, 4):
        made["possible_local_length"] = lengths(rng, rng.randint(2, 8))
    if one_in(rng, 8):
        made["example"] = digits
    return made


def descriptors(rng):
    """The descriptors of a record, and digits that their patterns were made for."""
    general = pattern(rng, rng.randint(2, 5))
    made, numbers = {"general": descriptor(rng, *general)}, []
    for kind in KINDS:
        if not one_in(rng, 2 if kind in ("fixed_line", "mobile") else 5):
            continue
        own = general
        if not one_in(rng, 3):
            own = (f"\\d{{{len(general[1])}}}", general[1]) if one_in(rng, 3) else pattern(rng, rng.randrange(5))
        made[kind] = descriptor(rng, *own)
        numbers.append(own[1])
    return made, [*numbers, general[1]]


def layout(rng, numbers):
    """A layout. Every second one takes digits that are there as a whole."""
    groups = grouped(rng, len(rng.choice(numbers))) if one_in(rng, 2) else rng.choice(GROUPS)
    made = {"pattern": groups, "format": template(rng, TEMPLATES)}
    made["leading_digits"] = [leading(rng, numbers) for _ in range(rng.randrange(3))]
    if one_in(rng, 2):
        made["national_prefix_formatting_rule"] = template(rng, RULES)
    if one_in(rng, 3):
        made["domestic_carrier"] = template(rng, RULES)
    if one_in(rng, 6):
        made["national_prefix_optional_when_formatting"] = True
    return made


def put_prefixes(rng, record, territory):
    """Puts what is dialled before numbers into a record, each part perhaps."""
    if not one_in(rng, 6):
        record["international_prefix"], shape = rng.choice(INTERNATIONAL)
        territory.international_prefix = digits_of(rng, shape)
        if one_in(rng, 3):
            record["preferred_international_prefix"] = rng.choice(PREFERRED_PREFIXES)
    if not one_in(rng, 4):
        record["national_prefix"] = territory.national_prefix = rng.choice(NATIONAL_PREFIXES)
    if one_in(rng, 2):
        record["national_prefix_for_parsing"], shape = rng.choice(NATIONAL)
        territory.national_prefix = digits_of(rng, shape)
    if one_in(rng, 2):
        record["national_prefix_transform_rule"] = template(rng, TRANSFORMS)


def put_marks(rng, record, numbers):
    """Puts what is left into a record, each part perhaps."""
    if one_in(rng, 3):
        record["leading_digits"] = leading(rng, numbers)
    if one_in(rng, 2):
        record["main_country_for_code"] = one_in(rng, 2)
    if one_in(rng, 3):
        record["preferred_extension_prefix"] = rng.choice(EXTENSION_PREFIXES)
    if one_in(rng, 6):
        record["mobile_number_portable"] = True
    if one_in(rng, 6):
        record["defaults"] = {"format": {}, "descriptor": None}


def draw_record(rng, code):
    """A record with this calling code as JSON, keys of a fault at its end, and its territory."""
    record, numbers = descriptors(rng)
    territory = Territory(rng.choice(IDS), code, numbers)
    record |= {"id": territory.id, "country_code": code}
    put_prefixes(rng, record, territory)
    for key in ("formats", "international_formats"):
        if not one_in(rng, 3):
            record[key] = [layout(rng, numbers) for _ in range(rng.randrange(5))]
    put_marks(rng, record, numbers)
    keys = list(record.items())
    if one_in(rng, 4):
        rng.shuffle(keys)
    text = json.dumps(dict(keys), ensure_ascii=one_in(rng, 4))
    choice = rng.randrange(40)
    more = rng.choice((FAULTS, REPEATED)[choice]) if choice < 2 else ""
    return (f"{text[:-1]}, {more}}}" if more else text), territory


def make_database(seed, place):
    """The database at a place: of one to six records, mostly of one or two codes, or no database at all."""
    rng = source(seed, place)
    first, second = rng.choice(CODES), rng.choice(CODES)
    codes = (first, first, first, first, second, second, rng.randrange(1000), rng.choice(ODD_CODES))
    records = [draw_record(rng, rng.choice(codes)) for _ in range(rng.randint(1, 6))]
    text = f"[{', '.join(text for text, _ in records)}]"
    choice = rng.randrange(48)
    if choice == 0:
        text = text[:rng.randrange(len(text))] + rng.choice(CUT_ENDS)
    elif choice == 1:
        depth = rng.randint(125, 130)
        text = "[" * depth + "]" * depth
    elif choice == 2:
        text = rng.choice(WHOLE)
    return Made(text, [territory for _, territory in records])


# ------------------------------------------------------------------ texts


def any_digits(rng):
    """A few digits, parted by nothing."""
    return "".join(rng.choice("0123456789") for _ in range(rng.randint(2, 18)))


def parted(rng, digits, partings):
    """Digits with what parts them here and there; some as letters, all in one script."""
    zero = ord(rng.choice(ZEROS) if one_in(rng, 24) else "0")
    has_letters, text = one_in(rng, 16), ""
    for c in digits:
        text += rng.choice(partings) if one_in(rng, 5) else ""
        if has_letters and one_in(rng, 2):
            text += rng.choice("AbPsXz")
        else:
            text += chr(zero + int(c)) if c in "0123456789" else c
    return text


def digits_for(rng, territory, partings=PARTINGS):
    """A number of the territory: digits that a pattern of it was made for, or sometimes any digits."""
    digits = rng.choice(territory.numbers)
    if one_in(rng, 8) or len(digits) <= rng.randrange(5):
        return any_digits(rng)
    return parted(rng, digits, partings)


def plus(rng, territory, prefix=""):
    """A plus sign, the calling code, what stands behind it, and a number."""
    parting = rng.choice(("", " ", " ", "-", " (", "\u00a0"))
    return f"{rng.choice(PLUSES)}{territory.code}{parting}{prefix}{digits_for(rng, territory)}"


def plus_and_prefix(rng, territory):
    """The same with what is dialled before a national number."""
    return plus(rng, territory, territory.national_prefix)


def national(rng, territory):
    """What is dialled before a national number, and a number."""
    front, parting = rng.choice(("", "", "", "(")), rng.choice(("", " ", "-", ") "))
    return front + territory.national_prefix + parting + digits_for(rng, territory)


def coded(rng, territory):
    """The calling code and a number."""
    return str(territory.code) + rng.choice(("", " ", "-")) + digits_for(rng, territory)


def dialled(rng, territory):
    """What is dialled before a calling code, the code, and a number."""
    return territory.international_prefix + coded(rng, territory)


def parameters(rng):
    """Parameters of a `tel:` text."""
    return "".join(rng.choice(PARAMETERS) for _ in range(rng.randrange(3)))


def tel_digits(rng, territory):
    """The digits of a `tel:` text, sometimes parted by what may not stand there."""
    return digits_for(rng, territory, PARTINGS if one_in(rng, 8) else TEL_PARTINGS)


def tel(rng, territory):
    """A `tel:` text with its code in front."""
    scheme, parting = rng.choice(("tel:", "tel:", "TEL:", "Tel:", "")), rng.choice("--.(")
    return f"{scheme}+{territory.code}{parting}{tel_digits(rng, territory)}{parameters(rng)}"


def context(rng, territory):
    """A `tel:` text with its code in a parameter."""
    front = rng.choice(("tel:", "tel:", "")) + territory.national_prefix + tel_digits(rng, territory)
    return f"{front}{parameters(rng)};phone-context=+{territory.code}{parameters(rng)}"


def noise(rng, _territory):
    """Characters of any class."""
    return "".join(any_character(rng) for _ in range(rng.randrange(24)))


def run(rng, territory):
    """A number, perhaps, and one text again and again: mostly a few times, sometimes ten thousand."""
    front = plus(rng, territory) if one_in(rng, 2) else ""
    most = 10000 if one_in(rng, 16) else 200
    return front + rng.choice(UNITS) * rng.randrange(most) + any_digits(rng)


def known(rng, _territory):
    """A text that was made by hand."""
    return rng.choice(KNOWN)


# The forms in which a number is written or dialled, by how often they are drawn: those that tell a calling code themselves,
# those that want a hint, and others.
TELL_CODE = (plus, plus, plus, plus, plus, tel, tel, context, plus_and_prefix)
WANT_HINT = (national, national, national, national, digits_for, digits_for, digits_for, dialled, dialled, coded)
FORMS = (*TELL_CODE, *WANT_HINT, noise, run, known)


def edited(rng, text):
    """A text with a character left out, written twice, replaced, or with another one in front of it."""
    if not text:
        return text
    place = rng.randrange(len(text))
    c = text[place]
    edit = rng.choice(("", c + c, any_character(rng), any_character(rng) + c))
    return text[:place] + edit + text[place + 1:]


def hint_for(rng, made, territory, form):
    """A hint for a text of a form: mostly the territory's own, for texts that tell a code mostly none."""
    choice = rng.randrange(16)
    if choice == 0:
        return "DE"
    if choice == 1 or choice >= 8 and form in TELL_CODE:
        return None
    return (rng.choice(made.territories) if choice < 4 else territory).region()


def make_text(rng, made):
    """A text to be read, and its hint."""
    territory = rng.choice(made.territories)
    form = rng.choice(FORMS)
    if form in WANT_HINT and territory.region() is None and not one_in(rng, 4):
        form = plus
    text = rng.choice(FRONTS) if one_in(rng, 12) else ""
    text += form(rng, territory)
    text += rng.choice(ENDS) if one_in(rng, 6) else ""
    if one_in(rng, 5):
        for _ in range(rng.randint(1, 3)):
            text = edited(rng, text)
    return hint_for(rng, made, territory, form), text


# ------------------------------------------------------------------ numbers made of parts


def make_part(rng):
    """An extension or a carrier, perhaps."""
    if one_in(rng, 2):
        return None
    if one_in(rng, 3):
        return "".join(any_character(rng) for _ in range(rng.randrange(8)))
    return rng.choice(PARTS)


def make_number(rng, made):
    """A number: code, value, zeros, extension and carrier."""
    territory = rng.choice(made.territories)
    code = rng.randrange(65536) if one_in(rng, 6) else territory.code
    digits = rng.choice(territory.numbers)
    value = int(digits) if digits.isascii() and digits.isdecimal() else None
    if value is None or one_in(rng, 6):
        value = rng.randrange(rng.choice((1, 100, 100_000, 1_000_000_000, LEAST_BEYOND)))
    zeros = rng.choice((0, 0, 0, 0, 1, 2, 255))
    return code, value % LEAST_BEYOND, zeros, make_part(rng), make_part(rng)


# ------------------------------------------------------------------ rows


def escaped(c):
    """A character of a column as a row has it."""
    number = ord(c)
    if c in "\t\n\\":
        return {"\t": "\\t", "\n": "\\n", "\\": "\\\\"}[c]
    if 0xDC80 <= number < 0xDD00:
        return f"\\x{number - 0xDC00:02x}"
    if number > 0xFFFF:
        return f"\\U{number:08x}"
    return c if c.isascii() and c.isprintable() else f"\\u{number:04x}"


def row(*columns):
    """A row in ASCII: a call and its arguments, parted by tabs."""
    return "\t".join("".join(map(escaped, str(column))) for column in columns)


def or_none(text):
    """A column that may be absent."""
    return "-" if text is None else f"={text}"


def make_rows(seed, place, made, texts):
    """The rows of a database that was accepted, whose name is its place: so many texts, and a number for every four."""
    rows = [row("codes-prefix-free", place)]
    for number in range(texts):
        rng = source(seed, place, number)
        hint, text = make_text(rng, made)
        rows.append(row("report", place, hint or "-", text))
        if number % TEXTS_FOR_A_NUMBER == 0:
            code, value, zeros, extension, carrier = make_number(rng, made)
            rows.append(row("format", place, code, value, zeros, or_none(extension), or_none(carrier), "-"))
    return rows
