"""The report on lines with their hints: lines.py TABLE [ROUNDS [RULES]] <LINES.

A line is a region, `-` for none, a tab, and the text. RULES is `library`, or `crate`, as without it. ROUNDS times over the lines
are timed after the report is written: ns a line on standard error.
"""

import sys
import time

from phonenumber_proved import TABLE, Database, Rules

rounds = int(sys.argv[2]) if len(sys.argv) > 2 else 0
rules = Rules[sys.argv[3].upper()] if len(sys.argv) > 3 else Rules.CRATE
lines = []
for row in sys.stdin.buffer.read().split(b"\n"):
    if row:
        hint, _, text = row.partition(b"\t")
        lines.append((None if hint == b"-" else hint.decode(), text))
with Database.load(sys.argv[1] if len(sys.argv) > 1 else TABLE) as world:
    for hint, text in lines:
        sys.stdout.buffer.write(world.report(text, hint, rules).encode() + b"\n")
    start = time.perf_counter()
    for _ in range(rounds):
        for hint, text in lines:
            world.report(text, hint, rules)
    if rounds:
        took = (time.perf_counter() - start) * 1e9 / rounds / len(lines)
        print(f"Python: {took:.0f} ns a line", file=sys.stderr)
