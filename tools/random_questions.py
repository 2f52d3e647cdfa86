"""Random rows of libphonenumber's further questions: what tools/answers --random asks of two programs.

Numbers are lines of tools/random_lines.py, each read in its region; or digits of an example, changed a little, as they are written there,
some with letters; or parts: a listed code or one that isn't, such digits, perhaps zeros before them, perhaps an extension. A row depends on
the seed and its own place.
"""
import random

import random_lines

MODES = ("E164", "International", "National", "Rfc3966")
KINDS = ("FixedLine", "Mobile", "FixedLineOrMobile", "TollFree", "PremiumRate", "SharedCost", "Voip", "PersonalNumber", "Pager", "Uan", "Voicemail", "Unknown")
COSTS = ("TollFree", "StandardRate", "PremiumRate", "UnknownCost")
# No regions, but for the first.
STRANGE = ("001", "ZZ", "XX", "-")
# Layouts: a pattern, a template, leading digits and a rule.
LAYOUTS = (
    (r"(\d)(\d+)", "$1 $2", "-", "($NP$FG)"), (r"(\d{3})(\d{3})(\d+)", "$1.$2.$3", "-", "-"), (r"(\d+)", "no $1", "[2-9]", "$NP-$FG"),
    (r"(\d{2})(\d{2,})", "$1-$2", "0?[1-9]", "$NP $FG"),
)
# The letters of the keys.
LETTERS = {"2": "ABCabc", "3": "DEFdef", "4": "GHI", "5": "JKL", "6": "MNOmno", "7": "PQRS", "8": "TUV", "9": "WXYZwxyz"}
# Shapes of questions: what their arguments are, behind their names.
SHAPES = {
    "keep": "w", "print": "nm", "carrier": "nc", "preferred": "nc", "mobile": "nry", "original": "nr", "letters": "nr", "dialled": "nr",
    "by-layouts": "nml", "area-length": "n", "destination-length": "n", "geographical": "n", "geographical-kind": "kC", "from-abroad": "n",
    "mobile-token": "C", "region-of": "C", "regions-of": "C", "portable": "r", "nanpa": "r", "code-of": "r", "ndd": "ry", "valid-for": "nr",
    "kinds-of-region": "r", "kinds-of-code": "C", "example": "r", "example-kind": "rk", "example-any": "k", "example-code": "C",
    "example-invalid": "r", "possible": "n", "possible-kind": "nk", "truncate": "n", "has-letters": "t", "keys": "t", "digits": "t",
    "diallable": "t", "extract": "t", "match": "nn", "match-text": "nt", "match-texts": "tt", "short-possible": "s", "short-valid": "s",
    "short-cost": "s", "short-carrier": "s", "short-sms": "sr", "short-example": "r", "short-example-cost": "rq",
}
# Those of a code, a region or a kind alone have few answers, and are asked less often.
QUESTIONS = [name for name, shape in SHAPES.items() for _ in range(1 if set(shape) <= set("Crkyq") else 8)]


def line(rng, seed, world):
    """A region or none, and a text without tabs and line feeds, and with something in it."""
    while True:
        hint, text = random_lines.line(seed, 0, rng.randrange(1 << 40), world)
        if text and not set(text) & set("\t\r\n"):
            return hint, text


def changed(rng, digits):
    """Digits with some of them changed, dropped or added."""
    for _ in range(rng.choice((0, 0, 1, 1, 2))):
        at = rng.randrange(len(digits))
        digits = digits[:at] + rng.choice(("", rng.choice("0123456789"), digits[at] + rng.choice("0123456789"))) + digits[at + 1:]
        digits = digits or "0"
    return digits[:15]


def examples(record):
    return [it["example"] for it in record.values() if isinstance(it, dict) and it.get("example")]


def parts(rng, records):
    """A number by its parts."""
    record = rng.choice(records)
    code = record["country_code"] if rng.random() < 0.95 else rng.choice((0, 999, 210, 64000))
    digits = changed(rng, rng.choice(examples(record) or ["12"]))
    digits = rng.choice(("", "", "", "", "0", "00")) + digits
    extension = "" if rng.random() < 0.8 else " " + str(rng.randrange(1, 10 ** rng.randrange(1, 8)))
    return f"{code} {digits}{extension}"


def written(rng, records):
    """A region and a number as it is written there."""
    record = rng.choice(records)
    digits = changed(rng, rng.choice(examples(record) or ["12"]))
    code, of_world = record["country_code"], record["id"] == "001"
    fronts = ("", "", record.get("national_prefix") or "", record.get("national_prefix") or "", f"+{code} ", f"{code} ", f"00 {code} ")
    front = f"+{code} " if of_world else rng.choice(fronts)
    text = front + "".join(rng.choice(("", "", "", " ", "-", ".", "/")) + it for it in digits)
    if rng.random() < 0.3:
        at = rng.randrange(1, len(text))
        text = text[:at] + "".join(rng.choice(LETTERS.get(it, it)) for it in text[at:])
    text += rng.choice(("", "", "", "", "", " ext. 12", " x5", ";ext=77", " #9", ", 31"))
    return ["-" if of_world else record["id"], text]


def read(rng, seed, records, world):
    """A region or none, and a text that is read there."""
    return written(rng, records) if rng.random() < 0.7 else list(line(rng, seed, world))


def number(rng, seed, records, world):
    return ["=", parts(rng, records)] if rng.random() < 0.4 else read(rng, seed, records, world)


def short(rng, records, shorts):
    """A number as short as a short one, of a region with such numbers or of any."""
    code = rng.choice(records)["country_code"]
    digits = changed(rng, rng.choice(examples(rng.choice(shorts)) or ["112"]))
    return ["=", f"{code} {digits}"]


def rows(seed, count, records, shorts):
    """So many rows, each a question and its arguments, of tables of numbers and of short ones."""
    world = [random_lines.Record(it) for it in records]
    return [row(seed, place, records, shorts, world) for place in range(count)]


def row(seed, place, records, shorts, world):
    """The row of a place."""
    rng = random.Random(f"{seed} {place}")
    question = rng.choice(QUESTIONS)
    ids = [it["id"] for it in records]
    region = lambda: rng.choice(ids) if rng.random() < 0.9 else rng.choice(STRANGE)
    of = {
        "n": lambda: number(rng, seed, records, world),
        "s": lambda: short(rng, records, shorts),
        "w": lambda: read(rng, seed, records, world),
        "t": lambda: read(rng, seed, records, world)[1:],
        "r": lambda: [region()],
        "m": lambda: [rng.choice(MODES)],
        "k": lambda: [rng.choice(KINDS)],
        "q": lambda: [rng.choice(COSTS)],
        "y": lambda: [rng.choice(("yes", "no"))],
        "c": lambda: [rng.choice(("-", "15", "31", "0"))],
        "C": lambda: [str(rng.choice(records)["country_code"] if rng.random() < 0.9 else rng.randrange(1000))],
        "l": lambda: list(rng.choice(LAYOUTS)),
    }
    return [question, *(it for shape in SHAPES[question] for it in of[shape]())]
