"""What users of the Python package count on, as tables: cases.py [FOLDER].

FOLDER is crates/replay/data, whose rows are replayed. The last line is `python: ok`; else a line tells each case that isn't so.
"""

import copy
import doctest
import json
import os
import pickle
import re
import shutil
import subprocess
import sys
import tempfile
from pathlib import Path

import phonenumber_proved
from phonenumber_proved import (
    TABLE, BadPrefixes, Database, Error, Form, Kind, Layout, Layouts, Mode, NoNumber, PhoneNumber, Prefixes, Rules, ShortNumbers, Source,
    UnknownCode, UnknownRegion, _calls, has_letters, is_viable, normalize,
)

REPLAY = Path(__file__).resolve().parents[2] / "crates" / "replay" / "data"
failed = []


def check(case, told, wanted):
    if told != wanted:
        failed.append(case)
        print(f"{case}: {told!r}, not {wanted!r}")


def refused(call, *args, **more):
    """The class and the words of what a call raises."""
    try:
        return call(*args, **more)
    except Exception as error:
        return type(error).__name__, str(error)


# Hint, text, E.164 text and validity by libphonenumber's rules, then by the crate's.
BY_RULES = [
    ("US", "+44 (0)20 7946 0018", "+442079460018", True, "+4402079460018", False),
    ("US", "+49 176 12345678", "+4917612345678", True, "+497612345678", True),
    ("NZ", "03-331 6005", "+6433316005", True, "+6433316005", True),
    ("GB", "020 7946 0018", "+442079460018", True, "+442079460018", True),
]


def rules_are_the_callers(world):
    for hint, text, by_library, is_valid, by_crate, is_valid_by_crate in BY_RULES:
        number, port = world.parse(text, hint), world.parse(text, hint, rules=Rules.CRATE)
        check(text, (number.e164, number.is_valid, number.rules), (by_library, is_valid, Rules.LIBRARY))
        check(text, (port.e164, port.is_valid, port.rules), (by_crate, is_valid_by_crate, Rules.CRATE))
        check(text, world.report(text, hint).split("\t")[1], by_library)
        check(text, world.report(text, hint, Rules.CRATE).split("\t")[1], by_crate)
        check(text, (number.by(Rules.CRATE) == number, number.by(Rules.CRATE).rules), (True, Rules.CRATE))
    check("rules", refused(world.parse, "1", None, 2), ("ValueError", "2 is not a valid Rules"))


# Text, kind, region, national text, international text.
TOLD = [
    ("+64 3 331 6005", Kind.FIXED_LINE, "NZ", "03 331 6005", "+64 3 331 6005"),
    ("+44 7912345678", Kind.MOBILE, "GB", "07912 345678", "+44 7912 345678"),
    ("+1 6502530000", Kind.FIXED_LINE_OR_MOBILE, "US", "(650) 253-0000", "+1 650-253-0000"),
    ("+80012340000", Kind.TOLL_FREE, None, "1234 0000", "+800 1234 0000"),
]


def numbers_are_told(world):
    for text, kind, region, national, international in TOLD:
        number = world.parse(text)
        told = (number.kind, number.region, number.format(Mode.NATIONAL), number.format(Mode.INTERNATIONAL))
        check(text, told, (kind, region, national, international))
        check(text, (number.source, number.format(), str(number)), (Source.PLUS, number.e164, number.e164))
    for rules, national in (Rules.LIBRARY, "(11) 2345-6789 ext. 7"), (Rules.CRATE, "0 31 (11) 2345-6789 ext. 7"):
        number = world.parse("0 31 11 2345 6789 ext. 7", "BR", rules)
        check("carrier", (number.extension, number.carrier, number.format(Mode.NATIONAL)), ("7", "31", national))
        again = pickle.loads(pickle.dumps(number)).on(world)
        check("carrier", (again == number, again.format(Mode.NATIONAL)), (True, national))
    number = world.parse("03-331 6005 ext. 12", "NZ")
    check("fields", (number.code, number.national, number.extension, number.carrier), (64, "33316005", "12", None))
    with Database("[]") as none:
        check("another database", refused(number.on(none).format), ("UnknownCode", "unknown calling code"))


def questions_are_refused(world):
    """What libphonenumber's further questions refuse; docstrings and questions.py have their answers."""
    for region, words in ("XX", "no region's id: 'XX'"), (None, "no region's id: ''"):
        for ask in world.about_region, world.national_prefix, world.region_kinds:
            check(region, refused(ask, region), ("UnknownRegion", words))
    with Database("[]") as none:
        check("no territory", refused(none.about_region, "NZ")[0], "UnknownRegion")
        check("no territory", (none.national_prefix("NZ"), none.region_kinds("NZ"), none.main_region(64)), (None, [], None))
    check("codes", [world.main_region(it) for it in (-1, 0, 1 << 16, 64)], [None, None, None, "NZ"])
    number = world.parse("+64 3 331 6005")
    alone = pickle.loads(pickle.dumps(number))
    asked = (lambda: alone.about, alone.truncated, lambda: alone.is_valid_for("NZ"), lambda: alone.national_with("1"), lambda: alone.match("1"))
    check("alone", [refused(ask)[0] for ask in asked], ["Closed"] * 5)
    check("alone", alone.match(number).name, "EXACT_MATCH")
    check("texts", [refused(ask, "\ud800")[0] for ask in (number.match, number.is_valid_for, number.national_with)], ["NoNumber"] * 3)
    check("texts", (refused(normalize, Form.KEYS, b"\xff")[0], has_letters(b"\xff"), refused(normalize, 3, "1")[0]), ("NoNumber", False, "ValueError"))
    check("texts", (world.match("call me", "331 6005").name, number.match("call me").name), ("NOT_A_NUMBER",) * 2)


# In their order.
ORDERED = ["+1 650 253 0000", "+39 02 3661 8300", "+64 21 387 835", "+64 3 331 6005", "+64 3 331 6005 ext. 12"]


def numbers_are_keys_of_tables(world):
    numbers = [world.parse(text) for text in ORDERED]
    check("order", sorted(reversed(numbers)), numbers)
    check("set", len(set(numbers + [world.parse(text) for text in ORDERED])), len(ORDERED))
    check("other", (numbers[0] == "+16502530000", numbers[0] != numbers[1]), (False, True))
    check("other order", refused(lambda: numbers[0] < 1)[0], "TypeError")
    for number in numbers:
        check("copy", (copy.copy(number) is number, copy.deepcopy([number])[0] is number), (True, True))
        for protocol in range(pickle.HIGHEST_PROTOCOL + 1):
            again = pickle.loads(pickle.dumps(number.by(Rules.CRATE), protocol))
            check("pickle", (again, hash(again), again.rules, again.e164), (number, hash(number), Rules.CRATE, number.e164))
            check("pickle", (again.extension, again.on(world).region), (number.extension, number.by(Rules.CRATE).region))
        check("alone", refused(lambda: again.region)[0], "Closed")
    check("database", refused(copy.copy, world), ("TypeError", "a Database is neither copied nor pickled"))
    check("database", refused(copy.deepcopy, world)[0], "TypeError")
    check("database", refused(pickle.dumps, world)[0], "TypeError")


# Code, national number, extension, carrier; and what is no number.
PARTS = [(64, "33316005", None, None), (39, "0236618300", "7", None), (55, "1123456789", "7", "31"), (1, "0", None, None),
         (65535, str((1 << 56) - 1), "", ""), (7, "0" * 255 + "1", None, None)]
NO_PARTS = [(64, ""), (64, "+1"), (64, "\u0661"), (64, " 1"), (-1, "1"), (1 << 16, "1"), (64, str(1 << 56)), (64, "0" * 256 + "1"),
            (64, "1", "\ud800"), (64, "1", None, "\udc80")]


def numbers_come_from_parts(world):
    for code, national, extension, carrier in PARTS:
        number = PhoneNumber.from_parts(code, national, extension, carrier, Source.IDD)
        told = number.code, number.national, number.extension, number.carrier, number.source
        check(national, told, (code, national, extension, carrier, Source.IDD))
        check(national, pickle.loads(pickle.dumps(number)), number)
    for parts in NO_PARTS:
        check(parts, refused(PhoneNumber.from_parts, *parts)[0], "ValueError")
    read = world.parse("+64 3 331 6005")
    made = PhoneNumber.from_parts(64, "33316005")
    check("parts", (made == read, hash(made) == hash(read), made.on(world).region, made.rules), (True, True, "NZ", Rules.LIBRARY))


def layouts_serve_each_national_prefix():
    """Layouts keep a template for five national prefixes: they serve eight, each asked again, and none."""
    general = {"national_number": r"\d{8}"}
    rows = [{"id": f"A{chr(65 + it)}", "country_code": 20 + it, "general": general, "national_prefix": str(it)} for it in range(8)]
    rows.append({"id": "AZ", "country_code": 28, "general": general})
    own = [Layout(r"(\d)(\d+)", "$1 $2", national_prefix_rule="($NP$FG)")]
    with Database(json.dumps(rows)) as table, Layouts(own) as kept:
        told = [table.parse(f"+{20 + it}33316005").format_by(kept) for it in [*range(9)] * 3]
    check("layouts", told, [f"({it}3) 3316005" if it < 8 else "3 3316005" for it in [*range(9)] * 3])


def no_file_is_needed():
    """The package alone, without the tables beside it, opens the one in the library."""
    here = Path(phonenumber_proved.__file__).parent
    with tempfile.TemporaryDirectory() as folder:
        shutil.copytree(here, Path(folder, "a", "b", here.name), ignore=shutil.ignore_patterns("data", "__pycache__"))
        env = {name: it for name, it in os.environ.items() if name != "PHONE_TABLE"}
        env.update(PYTHONPATH=str(Path(folder, "a", "b")), PHONE_LIBRARY=_calls.lib._name)
        program = "from phonenumber_proved import Database, TABLE, TABLE_VERSION, phonenumbers\n" \
            "with Database.load() as world: print(TABLE, TABLE_VERSION, world.parse('03-331 6005', 'NZ').region)\n" \
            "print(len(phonenumbers.SUPPORTED_REGIONS), phonenumbers.is_valid_number(phonenumbers.parse('+6433316005')))"
        ran = subprocess.run([sys.executable, "-c", program], env=env, capture_output=True, text=True)
    check("no file", (ran.stdout, ran.stderr), (f"None {phonenumber_proved.TABLE_VERSION} NZ\n245 True\n", ""))


def errors_are_values(world):
    told = []
    for call in (
        lambda: world.parse("call me"), lambda: world.parse("03-331 6005"), lambda: world.parse("1", "nz"), lambda: Database("["),
        lambda: Prefixes("1\ta\nx\tb"), lambda: world.parse("+64 3 331 6005").on(closed()).region,
    ):
        try:
            call()
            check("raised", None, call)
        except Error as error:
            told.append(error)
            for again in (pickle.loads(pickle.dumps(error)), copy.deepcopy(error), copy.copy(error)):
                check(error, (again == error, hash(again), type(again), str(again)), (True, hash(error), type(error), str(error)))
                check(error, vars(again), vars(error))
    check("order", sorted(told) == sorted(reversed(told)) and len(set(told)) == len(told), True)
    check("words", [type(it).__name__ + ": " + str(it) for it in told], [
        "NoNumber: not a number", "NoNumber: invalid country code", "UnknownRegion: no region's id: 'nz'", "BadDatabase: malformed JSON",
        "BadPrefixes: line 2: the prefix isn't 1 to 15 digits", "Closed: closed",
    ])
    check("line", told[4].line, 2)


def closed():
    database = Database("[]")
    database.close()
    database.close()
    return database


# Texts that have no UTF-8, or regions that are none.
LONE = ["\ud800", "+64 3 331 6005\udfff", "\udc80", "\ud83d", "\udca9\ud83d"]
NO_REGION = ["", "nz", "XX", "001", "NZ ", "N\0", "\ud800", "\U0001f4a9"]


def lone_surrogates_are_refused(world, table):
    not_utf8 = ("NoNumber", "not UTF-8")
    for text in LONE:
        for case in (text, text.encode("utf-8", "surrogatepass")):
            check(ascii(case), refused(world.parse, case, "NZ"), not_utf8)
            check(ascii(case), refused(world.typed, case, "NZ"), not_utf8)
            check(ascii(case), refused(world.caret, case, 1, "NZ"), not_utf8)
            check(ascii(case), refused(table.short, "NZ", case), not_utf8)
            check(ascii(case), world.report(case, "NZ"), "error\t0\tnot UTF-8")
            check(ascii(case), is_viable(case), False)
            check(ascii(case), refused(Database, case), ("BadDatabase", "not UTF-8"))
        with Prefixes("1\ta") as prefixes:
            check(ascii(text), refused(prefixes.longest, text), not_utf8)
        check(ascii(text), refused(Prefixes, "1\t" + text), ("BadPrefixes", "line 1: the text isn't UTF-8"))
    field = world.typing("NZ")
    field.push("033")
    check("field", (refused(field.push, "\ud800"), field.shown, field.keys), (not_utf8, "033", "033"))


def what_is_no_region_is_refused(world, table):
    for region in NO_REGION:
        words = ("UnknownRegion", f"no region's id: {region!a}")
        for call in (world.parse, world.report, world.typed):
            check(call, refused(call, "03-331 6005", region), words)
        check(ascii(region), refused(world.typing, region), words)
        check(ascii(region), refused(table.short, region, "111"), words)


def texts_are_str_or_bytes(world, table):
    for text in (None, 5, ["03-331 6005"]):
        check(text, refused(world.parse, text), ("TypeError", f"a text is str or bytes, not {type(text).__name__}"))
    check("NUL", refused(world.parse, "+64 3 331\0 6005").__class__, tuple)
    for text in (b"+64 3 331 6005", bytearray(b"+64 3 331 6005"), memoryview(b"+64 3 331 6005")):
        check("bytes", world.parse(text).e164, "+6433316005")
    check("caret", [world.caret("+64", n, "NZ") for n in (0, 1, 3, 4, 1 << 80)], [0, 1, 3, 4, 4])
    check("caret", refused(world.caret, "+64", -1), ("ValueError", "keys are counted from 1"))
    check("long", refused(world.parse, "+64" + "3" * 100_000), ("NoNumber", "the number is too long"))


def what_is_closed_is_refused(_):
    check("closed", refused(closed().parse, "03-331 6005", "NZ"), ("Closed", "closed"))


def plain(field):
    """A field of a row with its escapes undone, in bytes."""
    def of(found):
        sign = found[1].decode()
        if sign[0] in "uU":
            return chr(int(sign[1:], 16)).encode()
        if sign[0] == "x":
            return bytes([int(sign[1:], 16)])
        return {"t": b"\t", "n": b"\n"}.get(sign, sign.encode())
    return re.sub(rb"\\(x..|u.{4}|U.{8}|.)", of, field)


def rows(folder, file, call):
    for line in (folder / file).read_bytes().split(b"\n"):
        fields = line.split(b"\t")
        if fields[0] == call.encode():
            yield [plain(field) for field in fields[1:]]


def typed_rows(world, folder):
    count = 0
    for base, hint, keys, wanted, *_ in rows(folder, "typed.tsv", "typed"):
        if base != b"world/world":
            continue
        hint, keys = None if hint == b"-" else hint.decode(), keys.decode()
        field = world.typing(hint)
        shown = [field.push(key) for key in keys]
        check(keys, "|".join(shown), wanted.decode())
        places = [field.caret(n) for n in range(len(field.keys) + 2)]
        check(keys, [re.sub(r"[^+0-9]", "", field.shown[:at]) for at in places], [field.keys[:n] for n in range(len(places))])
        whole = world.typing(hint)
        check(keys, (whole.push(keys), whole.keys), (field.shown, field.keys))
        if len(field.keys) == len(keys) > 1:
            check(keys, field.back(), shown[-2])
        field.clear()
        check(keys, (field.shown, field.keys, field.back()), ("", "", ""))
        count += 1
    return count


def library_rows(world, folder):
    """Reports and numbers by libphonenumber's rules."""
    count = 0
    for base, hint, text, wanted, *_ in rows(folder, "library.tsv", "library"):
        hint, text, wanted = None if hint == b"-" else hint.decode(), text.decode(), wanted.decode().split("\t")
        check((hint, text), world.report(text, hint).split("\t"), wanted[:9])
        if wanted[0] == "error":
            check((hint, text), refused(world.parse, text, hint)[0], "NoNumber")
        else:
            number = world.parse(text, hint)
            told = [number.e164, number.format(Mode.NATIONAL), number.kind.name.replace("_", "").lower(), number.region or "-"]
            told += ["valid" if number.is_valid else "invalid", number.extension or "-", number.carrier or "-", number.national]
            check((hint, text), told, [wanted[1], wanted[3], wanted[6].lower(), *wanted[7:]])
        count += 1
    return count


def short_rows(table, folder):
    count = 0
    for base, region, text, wanted, *_ in rows(folder, "short.tsv", "short"):
        if base != b"world/short":
            continue
        facts = table.short(region.decode(), text.decode())
        cost = {"UNKNOWN": "UNKNOWN_COST"}.get(facts.cost.name, facts.cost.name)
        said = [cost if it is facts.cost else "yes" if it else "no" for it in facts]
        check((region, text), "\t".join(said), wanted.decode())
        count += 1
    return count


def word(value):
    """The word that rows have for a value, as FixedLine."""
    return "".join(part.capitalize() for part in value.name.split("_"))


def part(field):
    return None if field == "-" else field[1:]


def hint_in(field):
    return None if field == "-" else field


def made(world, rules, code, value, zeros, extension=None):
    return PhoneNumber.from_parts(int(code), "0" * int(zeros) + value, extension).on(world).by(rules)


def read_parts(number):
    if number is None:
        return "-"
    texts = number.extension, number.carrier
    told = number.code, number.source.name.lower(), number.national, *("-" if it is None else "=" + it for it in texts)
    return "\t".join(map(str, told))


def found_in(world, rules, hint, text):
    found, out, last = world.find(text, hint_in(hint), rules=rules), "", 0
    for it in found:
        out, last = out + text[last : it.start] + "{" + text[it.start : it.end] + "}", it.end
    return "\t".join([out + text[last:], *(it.number.e164 for it in found)])


# The calls that rows ask, with how many fields each has behind its database.
UTILITIES = {
    "possible": (3, lambda world, rules, *parts: word(made(world, rules, *parts).possibility)),
    "possible-text": (2, lambda world, rules, hint, text: word(world.possibility_of_text(text, hint_in(hint), rules))),
    "same": (2, lambda world, rules, one, two: word(world.compare(one, two, rules))),
    "dialled-from": (5, lambda world, rules, code, value, zeros, extension, region:
                     "=" + made(world, rules, code, value, zeros, part(extension)).dialled_from(region)),
    "example": (2, lambda world, rules, region, kind:
                read_parts(world.example(region, next(it for it in Kind if word(it) == kind), rules))),
    "regions": (0, lambda world, rules: "=" + " ".join(world.regions())),
    "codes": (0, lambda world, rules: "=" + " ".join(map(str, world.codes()))),
    "found": (2, found_in),
}


def utility_rows(folder):
    """What is possible, alike, dialled, listed and found, by both rules."""
    count, opened = 0, {}
    cases = [(file, call, rules) for file in ("more.tsv", "rules.tsv", "found.tsv") for call in UTILITIES for rules in Rules]
    for file, call, rules in cases:
        fields, asked = UTILITIES[call]
        for base, *row in rows(folder, file, call + ("-library" if rules == Rules.LIBRARY else "")):
            args, wanted = [it.decode() for it in row[:fields]], row[fields].decode()
            world = opened.get(base) or opened.setdefault(base, Database.load(folder / "databases" / (base.decode() + ".json")))
            try:
                told = asked(world, rules, *args)
            except NoNumber as error:
                told, wanted = f"error\t{error.status}", "\t".join(wanted.split("\t")[:2])
            except (UnknownCode, UnknownRegion) as error:
                told = type(error).__name__
            check((call, base, rules.name, *args), told, wanted)
            count += 1
    for it in opened.values():
        it.close()
    return count


def each_value_has_a_word():
    """The words of the library for a set are the names of its values here, and each status has some."""
    sets = [Kind, Source, phonenumber_proved.Possibility, phonenumber_proved.Sameness, phonenumber_proved.Cost]
    for number, values in enumerate(sets):
        words = [_calls.written(lambda *out: _calls.lib.phone_word(number, it, *out)).decode() for it in values]
        told = [re.sub(r"_COST$|[-_]", "", it).lower() for it in words]
        check(values.__name__, told, [it.name.replace("_", "").lower() for it in values])
    told = [status for status in range(64) if "status" not in _calls.words_of(status)]
    check("statuses", told, [*range(13), *range(16, 23), *range(24, 38)])


def prefix_rows(folder):
    count = 0
    for table, digits, wanted, _ in rows(folder, "prefixes.tsv", "prefix"):
        try:
            with Prefixes(table) as prefixes:
                found = prefixes.longest(digits)
            told = "none" if found is None else ": ".join(found)
        except BadPrefixes as error:
            told = "!" + str(error)
        check((table, digits), told, wanted.decode())
        count += 1
    return count


def long_texts():
    """A text that is longer than the first buffer, and one that isn't."""
    with Prefixes.load(Path(TABLE).with_name("timezones.tsv")) as zones:
        prefix, text = zones.longest("18002345678")
        check("zones", (prefix, len(text) > 512, text.rpartition("&")[2]), ("1", True, "Pacific/Saipan"))
        check("zone", zones.longest("12015550123"), ("1201", "America/New_York"))
        check("none", zones.longest("0"), None)


def docstrings():
    """The examples of the package and of each public name."""
    finder, runner = doctest.DocTestFinder(), doctest.DocTestRunner()
    names = vars(phonenumber_proved)
    for name in ["", *phonenumber_proved.__all__]:
        it = names[name] if name else phonenumber_proved
        if name and not callable(it):
            continue
        for test in finder.find(it, name or "phonenumber_proved", module=None if not name else False, globs=dict(names)):
            if name or test.name == "phonenumber_proved":
                runner.run(test)
    for test in finder.find(Database.__mro__[1], "Database", module=False, globs=dict(names)):
        runner.run(test)
    check("docstrings", runner.failures, 0)
    return runner.tries


def main(words):
    folder = Path(words[0]) if words else REPLAY
    with Database.load() as world, ShortNumbers.load() as table:
        for case in (rules_are_the_callers, numbers_are_told, numbers_are_keys_of_tables, numbers_come_from_parts,
                     errors_are_values, what_is_closed_is_refused, questions_are_refused):
            case(world)
        for case in (lone_surrogates_are_refused, what_is_no_region_is_refused, texts_are_str_or_bytes):
            case(world, table)
        long_texts()
        layouts_serve_each_national_prefix()
        no_file_is_needed()
        each_value_has_a_word()
        count = [typed_rows(world, folder), short_rows(table, folder), prefix_rows(folder), docstrings()]
        count += [library_rows(world, folder), utility_rows(folder)]
    check("rows", all(it > least for it, least in zip(count, (1000, 2000, 20, 20, 10_000, 500))), True)
    check("py.typed", Path(phonenumber_proved.__file__).with_name("py.typed").exists(), True)
    check("version", re.fullmatch(r"\d+\.\d+\.\d+", phonenumber_proved.__version__) is not None, True)
    print(f"rows: {count[0]} typed, {count[1]} short, {count[2]} of prefixes, {count[4]} read, {count[5]} of utilities; "
          f"{count[3]} examples")
    print(f"python: {len(failed)} failed" if failed else "python: ok")
    return 1 if failed else 0


if __name__ == "__main__":
    sys.exit(main(sys.argv[1:]))
