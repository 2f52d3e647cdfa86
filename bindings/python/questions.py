"""The further questions of libphonenumber over the package, by the rows of crates/replay/data/questions.tsv.

tools/answers --as-libphonenumber answers them, and tools/answers those of our own answers, whose names have `own-`. The last line is
`questions: ok`, with the count of rows; else a line tells each that is answered otherwise.
"""

import re
import subprocess
import sys
import tempfile
from pathlib import Path

TOP = Path(__file__).resolve().parents[2]
ROWS = TOP / "crates" / "replay" / "data" / "questions.tsv"

# The escapes of rows: of characters, of a tab, of a line feed, of a backslash.
ESCAPE = re.compile(r"\\(?:u([0-9A-Fa-f]{4})|U([0-9A-Fa-f]{8})|([tn\\]))")


def plain(text):
    """A row without its escapes."""
    return ESCAPE.sub(lambda it: {"t": "\t", "n": "\n", "\\": "\\"}[it[3]] if it[3] else chr(int(it[1] or it[2], 16)), text)


def wrong(rows, *options):
    """The rows that are answered otherwise, each with that answer."""
    with tempfile.NamedTemporaryFile("w", encoding="utf-8", newline="\n", suffix=".tsv") as file:
        file.write("".join("\t".join(row) + "\n" for row in rows))
        file.flush()
        words = [TOP / "tools" / "answers", *options, "--kind", "more", file.name]
        told = subprocess.run([sys.executable, *words], check=True, capture_output=True, encoding="utf-8").stdout
    return [(row, it) for row, it in zip(rows, told.split("\n")[:-1], strict=True) if row[-1] != it]


def main():
    lines = [line.split("\t")[2:-1] for line in ROWS.read_text(encoding="utf-8").split("\n") if line.startswith("question\t")]
    rows = [[plain(it) for it in line] for line in lines]
    own = [[row[0].replace("own-", ""), *row[1:]] for row in rows if "own-" in row[0]]
    others = [row for row in rows if "own-" not in row[0]]
    found = wrong(others, "--as-libphonenumber") + wrong(own)
    for row, it in found:
        print("\t".join(row), "here:", it)
    print(f"questions: {len(found)} of {len(rows)} differ" if found else f"questions: ok, {len(rows)} rows")
    return 1 if found else 0


if __name__ == "__main__":
    sys.exit(main())
