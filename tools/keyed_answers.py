#!/usr/bin/env python3
"""What libphonenumber's formatter shows of a number while it is typed, by a model that shares no code with phone_typed.

usage: tools/keyed_answers.py DATABASE.json ROWS.tsv

A row is `keyed`, a database's name, a hint or `-`, the characters, and perhaps what is shown after each, `|` between; or `keyed-caret` with
the same, and after how many characters of what is shown at last each of them stands. With answers each row that has another one is printed,
then how many rows there are and how many differ, and the status is 1 where some do; without, each row with its answer.
"""
import json
import re
import sys
import unicodedata
from dataclasses import dataclass, replace

PUNCT = "-x\u2010-\u2015\u2212\u30fc\uff0d-\uff0f \u00a0\u00ad\u200b\u2060\u3000()\uff08\uff09\uff3b\uff3d.\\[\\]/~\u2053\u223c\uff5e"
ELIG = re.compile("[" + PUNCT + "]*\\$1[" + PUNCT + "]*(\\$\\d[" + PUNCT + "]*)*")
FIRST = re.compile(r"\(?\$(1|FG)\)?")
NINES = "9" * 15

class DB:
    def __init__(self, records):
        self.by_id, self.of_code = {}, {}
        for r in records:
            self.by_id[r["id"]] = r
            l = self.of_code.setdefault(r["country_code"], [])
            l.insert(0, r) if r.get("main_country_for_code") else l.append(r)
    def shortest(self, t):
        if t[:1] == "0": return None
        for k in (1, 2, 3):
            if k <= len(t) and int(t[:k]) in self.of_code: return int(t[:k])
    def home(self, hint):
        m = self.by_id.get(hint)
        return self.of_code[m["country_code"]][0] if m else None

def at_start(p, t):
    m = re.match(p, t)
    return m.end() if m else None
def first_span_at_start(p, t):
    m = re.search(p, t)
    return m.end() if m and m.start() == 0 else None

@dataclass(frozen=True)
class S:
    db: object = None
    hint: str = ""
    text: str = ""
    keys: str = ""
    odd: bool = False
    m: object = None
    front: str = ""
    national: str = ""
    prefix: str = ""
    whole: bool = False
    awaits: bool = False
    able: bool = True
    layouts: tuple = ()
    pattern: str = ""
    template: str = ""
    spaced: bool = False
    shown: str = ""

def new(db, hint):
    return S(db=db, hint=hint, m=db.home(hint))

def joined(s, t):
    f = s.front
    return f + (" " if s.spaced and f and f[-1] != " " else "") + t

def key_of(text_before, c):
    if not text_before and c == "+": return "+"
    if c.isdigit() and c.isdecimal():
        return str(unicodedata.decimal(c))
    return None

def idd(s):
    m = s.m
    if s.keys[:1] == "+": end = 1
    elif m and m.get("international_prefix"):
        end = at_start(m["international_prefix"], s.keys)
    else: end = None
    if end is None: return None
    return replace(s, whole=True, national=s.keys[end:], front=s.keys[:end] + ("" if s.keys[:1] == "+" else " "))

def with_code(s):
    code = s.db.shortest(s.national)
    if code is None: return None
    k = str(code)
    m = s.db.of_code[code][0]
    return replace(s, national=s.national[len(k):], m=s.m if m["id"] == s.hint else m, front=s.front + k + " ", prefix="")

def strip(s):
    """-> (state, prefix)"""
    m, n = s.m, s.national
    if m and m["country_code"] == 1 and n[:1] == "1" and n[1:2] not in ("0", "1"):
        return replace(s, front=s.front + "1 ", national=n[1:], whole=True), "1"
    p = m and (m.get("national_prefix_for_parsing") or m.get("national_prefix"))
    if p:
        e = at_start(p, n)
        if e:
            return replace(s, front=s.front + n[:e], national=n[e:], whole=True), n[:e]
    return s, ""

def longer(s):
    if s.prefix:
        s = replace(s, national=s.prefix + s.national, front=s.front[:s.front.rfind(s.prefix)])
    t, p = strip(s)
    return t, p != s.prefix

def led(f, n):
    l = f.get("leading_digits", ())
    return not l or at_start(l[min(len(n) - 3, len(l) - 1)], n) is not None

def narrowed(s):
    return replace(s, layouts=tuple(f for f in s.layouts if led(f, s.national)))

def first_only(f):
    r = f.get("national_prefix_formatting_rule")
    return not r or FIRST.fullmatch(r) is not None
def eligible(s, f):
    if not ELIG.fullmatch(f["format"]): return False
    opt = f.get("national_prefix_optional_when_formatting")
    if s.prefix: return not first_only(f) or opt or bool(f.get("domestic_carrier"))
    return s.whole or first_only(f) or bool(opt)
def available(s):
    m = s.m
    l = () if m is None else (m.get("international_formats") or m.get("formats", ())) if s.whole and not s.prefix else m.get("formats", ())
    return replace(s, layouts=tuple(f for f in l if eligible(s, f)))

def laid(f, n):
    return re.sub(f["pattern"], lambda m: re.sub(r"\$(\d)", lambda g: m.group(int(g[1])) or "", f["format"]), n, count=1)
def spaced(f): return bool(re.search("[- ]", f.get("national_prefix_formatting_rule") or ""))
def complete(s):
    for f in s.layouts:
        if re.fullmatch(f["pattern"], s.national):
            s = replace(s, spaced=spaced(f))
            t = joined(s, laid(f, s.national))
            if re.sub(r"[^0-9+*#]", "", t) == s.keys: return s, t
    return s, None

def template(f, n):
    m = re.search(f["pattern"], NINES)
    if not m or len(m[0]) < len(n): return ""
    return laid(f, m[0])
def with_template(s):
    ls = s.layouts
    t = s.template
    while ls:
        f = ls[0]
        if s.pattern == f["pattern"]: return replace(s, layouts=ls, template=t), False
        t = template(f, s.national)
        if t: return replace(s, layouts=ls, template=t, pattern=f["pattern"], spaced=spaced(f)), True
        ls = ls[1:]
    return replace(s, layouts=ls, template=t, able=False), False

def begun(s):
    """the template's beginning with the national digits, or None"""
    k, i, out = len(s.national), 0, ""
    if s.template.count("9") < k: return None
    for c in s.template:
        if i == k: return out
        if c == "9": c = s.national[i]; i += 1
        out += c
    return out

def filled(s):
    if not s.national: return s, s.front
    b = begun(s)
    if b is None:
        return replace(s, pattern="", able=s.able and len(s.layouts) != 1), s.text
    return s, (joined(s, b) if s.able else s.text)

def choose(s):
    if len(s.national) < 3: return s, joined(s, s.national)
    s = narrowed(available(s))
    s, t = complete(s)
    if t is not None: return s, t
    s, b = with_template(s)
    return filled(s) if b else (s, s.text)

def anew(s):
    return choose(replace(s, able=True, awaits=False, layouts=(), template="", pattern=""))

def unable(s):
    if s.odd: return s, s.text
    t = idd(s)
    if t is not None:
        u = with_code(t)
        return anew(u) if u is not None else (t, s.text)
    t, p = longer(s)
    if p: return anew(replace(t, front=t.front + " "))
    return t, s.text

def go_on(s):
    if s.awaits:
        t = with_code(s)
        if t is not None: s = replace(t, awaits=False)
        return s, s.front + s.national
    if not s.layouts: return choose(s)
    b = begun(s)
    temp = b
    if b is None: s = replace(s, pattern="", able=s.able and len(s.layouts) != 1); temp = s.text
    s, t = complete(s)
    if t is not None: return s, t
    s = narrowed(s)
    s, made = with_template(s)
    if made: return filled(s)
    return s, (joined(s, temp) if s.able else s.text)

def step(s, c):
    k = key_of(s.text, c)
    s = replace(s, text=s.text + c)
    if k is None: s = replace(s, odd=True, able=False)
    else: s = replace(s, keys=s.keys + k, national=s.national + (k if k != "+" else ""))
    if not s.able: r = unable(s)
    elif len(s.keys) < 3: r = (s, s.text)
    elif len(s.keys) == 3:
        t = idd(s)
        if t is None:
            t, p = strip(s)
            r = choose(replace(t, prefix=p))
        else: r = go_on(replace(t, awaits=True))
    else: r = go_on(s)
    return replace(r[0], shown=r[1])


def shown(db, hint, typed):
    """What is shown after each character, with bars between."""
    s, out = new(db, hint), []
    for c in typed:
        s = step(s, c)
        out.append(s.shown)
    return "|".join(out)


def caret(s, n):
    """After how many characters of what is shown the n-th stands that was typed."""
    if not s.able: return min(n, len(s.text))
    left, place = s.keys[:n], 0
    for c in s.shown:
        if not left: break
        if c == left[0]: left = left[1:]
        place += 1
    return place


def carets(db, hint, typed):
    """The caret after each character, with bars between."""
    s = new(db, hint)
    for c in typed: s = step(s, c)
    return "|".join(str(caret(s, n + 1)) for n in range(len(typed)))


ANSWERS = {"keyed": shown, "keyed-caret": carets}


def main(argv):
    with open(argv[0], encoding="utf-8") as file:
        db = DB(json.load(file))
    rows = differ = 0
    with open(argv[1], encoding="utf-8") as file:
        for line in file:
            parts = line.rstrip("\n").split("\t")
            typed = parts[3].encode().decode("unicode_escape")
            found = "".join(c if c < "\x7f" else f"\\u{ord(c):04X}" for c in ANSWERS[parts[0]](db, parts[2], typed))
            rows += 1
            if len(parts) < 5:
                print("\t".join(parts + [found]))
            elif found != parts[4]:
                differ += 1
                print(f"{line.rstrip()}\n  but here: {found}")
    print(f"keyed_answers: {rows} rows, {differ} differ")
    return 1 if differ else 0


if __name__ == "__main__":
    sys.exit(main(sys.argv[1:]))
