"""Answers of the second reading as fields by name: of the program replay's rows `library`, and of programs that print what
tools/libphonenumber.py prints."""
from libphonenumber import FIELDS

# The fields of a report line behind its first word; `number` is the E.164 text.
REPORTED = ["number", "international", "national", "rfc3966", "source", "kind", "region", "valid"]
# Those of FIELDS that are no printed text, in the order in which a program may print them that makes no printed texts.
UNPRINTED = "code value extension zeros kind region valid number source carrier".split()
# The names of the refusals that a report line tells by their numbers.
REFUSALS = {"0": "not UTF-8", "1": "NoNumber", "2": "InvalidCountryCode", "3": "TooShortAfterIdd", "4": "TooShortNsn", "5": "TooLong",
            "6": "MalformedInteger"}
# The national numbers of this port are below this.
VALUES = 2 ** 56


def of_row(row):
    """The answer to a row `library` of the program replay, without escapes."""
    first, *fields = row.split("\t")
    if first != "ok":
        return {"refusal": REFUSALS[fields[0]]}
    *reported, extension, carrier, national = fields
    answer = dict(zip(REPORTED, reported))
    value = str(int(national))
    told = {"code": answer["number"][1:].removesuffix(national), "value": value, "extension": extension,
            "zeros": str(len(national) - len(value)), "carrier": carrier}
    return {field: (answer | told)[field] for field in FIELDS}


def of_line(line):
    """An answer as tools/libphonenumber.py prints it, or the same without the printed texts. The region 001 is none."""
    first, *fields = line.split("\t")
    if first != "ok":
        return {"refusal": fields[0]}
    answer = dict(zip(FIELDS if len(fields) == len(FIELDS) else UNPRINTED, fields))
    return answer | ({"region": "-"} if answer["region"] == "001" else {})


def is_beyond(ours, theirs):
    """Whether the other program reads a national number that this port's values can't hold, and this port says so."""
    return int(theirs.get("value", 0)) >= VALUES and ours.get("refusal") == "TooLong"


def differing(ours, theirs):
    """The fields, of those that both have, that differ in two answers; `read` where one alone is a refusal."""
    if ("refusal" in ours) != ("refusal" in theirs):
        return ["read"]
    return [field for field in ours if field in theirs and ours[field] != theirs[field]]
