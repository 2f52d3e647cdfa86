"""Columns of texts against the calls for one text, as tables: columns.py. NumPy, pandas, pyarrow and polars are tried where they are
there. The last line is `columns: ok`; else a line tells each case that isn't so."""

import ctypes
import importlib.util
import random
import sys
from array import array

from phonenumber_proved import Column, Database, Kind, Mode, NoNumber, Rules, Source, UnknownRegion, _arrow, _calls
from phonenumber_proved.layout import bits_of, chunk_of, flags_of

failed = []
ALL = [it.name.lower() for it in Column]


def check(case, told, wanted):
    if told != wanted:
        failed.append(case)
        print(f"{case}: {told!r}, not {wanted!r}")


def refused(call, *args, **more):
    """The class and the words of what a call raises."""
    try:
        return call(*args, **more)
    except Exception as error:
        return type(error).__name__, str(error)


def has(name):
    found = importlib.util.find_spec(name) is not None
    if not found:
        print(f"{name}: not tried, since it is not there")
    return found


TEXTS = ["03-331 6005", "+64 3 331 6005 ext. 12", "call me", None, "", "(650) 253-0000", "+44 20 7946 0018", "12", b"+390236618300", b"\xff",
         "\ud800", "+80012340000", "0 31 11 2345 6789", "+999 1", "+64 21 387 835" + " " * 300, "\u0660\u0663-\u0663\u0663\u0661 6005"]
HINTS = ["NZ", None, "US", "BR", "", "ZZ", "xx", b"\xff"]


def rows():
    """Each text under each hint, and those of all regions."""
    pairs = [(text, hint) for text in TEXTS for hint in HINTS]
    with Database.load() as world:
        for region in world.regions():
            for kind in Kind:
                number = world.example(region, kind)
                if number is not None:
                    pairs += [(number.format(Mode.NATIONAL), region), (number.format(Mode.RFC3966), None)]
    return pairs


def single(world, text, hint, rules):
    """What the calls for one text tell of a row, by the names of columns."""
    answer = dict.fromkeys(ALL)
    answer["is_number"] = False
    if text is None:
        return answer
    try:
        number = world.parse(text, hint or None, rules)
    except (NoNumber, UnknownRegion) as error:
        answer["refusal"] = "unknown region" if isinstance(error, UnknownRegion) else str(error)
        return answer
    zeros = len(number.national) - len(str(int(number.national)))
    return dict(
        zip((it.name.lower() for it in Mode), map(number.format, Mode)), code=number.code, value=int(number.national), zeros=zeros,
        kind=number.kind, region=number.region, validity=number.is_valid, source=number.source, refusal=None, is_number=True)


def rows_are_those_of_single_calls(world, pairs):
    texts, hints = map(list, zip(*pairs))
    for rules in Rules:
        wanted = [single(world, *pair, rules) for pair in pairs]
        for threads in 1, 4:
            told = world.columns(texts, hints, Column, threads, rules)
            check("names", list(told), ALL)
            for k, row in enumerate(zip(*told.values())):
                check((rules.name, *pairs[k]), dict(zip(ALL, row)), wanted[k])
        for hint in "NZ", None, "BR":
            told = world.columns(texts, hint, ["region", "e164"], rules=rules)
            wanted_too = [single(world, text, hint, rules) for text in texts]
            check(hint, told, {name: [it[name] for it in wanted_too] for name in ("region", "e164")})


def what_is_asked_is_looked_at(world):
    check("no rows", world.columns([], [], ["e164", "kind"]), {"e164": [], "kind": []})
    check("no columns", world.columns(["1"], None, []), {})
    check("twice", world.columns(["03-331 6005"], "NZ", ["code", "e164", "code"]), {"code": [64], "e164": ["+6433316005"]})
    check("one text", refused(world.columns, "03-331 6005", "NZ")[0], "TypeError")
    check("a number", refused(world.columns, [1], "NZ")[0], "TypeError")
    check("hints", refused(world.columns, ["1", "2"], ["NZ"]), ("ValueError", "there are 2 texts, and 1 hints"))
    check("no region", refused(world.columns, ["1"], "ZZ1"), ("UnknownRegion", "no region's id: 'ZZ1'"))
    check("empty hint", refused(world.columns, ["1"], "")[0], "UnknownRegion")
    check("no column", refused(world.columns, ["1"], None, ["e165"]), ("ValueError", "no column is called 'e165'"))
    check("no column", refused(world.columns, ["1"], None, [13])[0], "ValueError")
    check("threads", refused(world.columns, ["1"], None, threads=0)[0], "ValueError")
    check("a generator", world.columns((it for it in ["1", "+64 3 331 6005"]), "NZ", ["code"]), {"code": [None, 64]})
    with Database.load() as other:
        other.close()
        check("closed", refused(other.columns, ["1"])[0], "Closed")


def how_far_it_is_is_told(world):
    texts, steps = ["03-331 6005", None, "call me"] * 20_000, []
    told = world.columns(texts, "NZ", ["code"], 4, progress=lambda *it: steps.append(it))
    check("all", told["code"], [64, None, None] * 20_000)
    check("steps", (steps == sorted(steps), steps[-1], {it for _, it in steps}, len(steps) > 2), (True, (60_000, 60_000), {60_000}, True))

    def stops(done, _):
        raise KeyError(done)

    check("stopped", refused(world.columns, texts, "NZ", threads=4, progress=stops), ("KeyError", "7500"))
    long = ["+64 3 331 6005 ext. 1234567"] * 1000
    check("long", world.columns(long, None, ["rfc3966"])["rfc3966"], ["tel:+64-3-331-6005;ext=1234567"] * 1000)


def flags_are_bits():
    for count in 0, 1, 7, 8, 9, 63, 64, 65, 1000:
        flags = [random.random() < 0.5 for _ in range(count)]
        bits = bits_of(bytes(flags))
        check("bits", len(bits), (count + 7) // 8)
        at = ctypes.addressof((ctypes.c_char * len(bits)).from_buffer(bits)) if count else 0
        for first in range(0, count, 5):
            check(("flags", count, first), list(flags_of(at, first, count - first)), list(map(int, flags[first:])))


class Arrow:
    """Texts that are handed over by Arrow's protocol, in chunks, of a type."""

    def __init__(self, kind, chunks):
        self.kind, self.chunks = kind, chunks

    def _given(self, values):
        chunk = chunk_of(values)
        offsets, data, bits = chunk.keep
        if self.kind in (b"u", b"z"):
            offsets = array("I", offsets)
        return _arrow.Given(self.kind, len(values), (bits or None, offsets, data))

    def __arrow_c_stream__(self, requested_schema=None):
        return _arrow.stream_capsule(["it"], [self._given([])], lambda: ((len(it), [self._given(it)]) for it in self.chunks))


def arrow_is_spoken(world, pairs):
    """Texts by a stream of tables of one column, in chunks that differ from those of the hints; what is told is read by the same way."""
    texts, hints = map(list, zip(*pairs))
    wanted = world.columns(texts, hints, Column)
    for kind, of_hints in (b"u", b"u"), (b"U", b"U"), (b"u", b"U"), (b"Z", b"z"):
        own = Arrow(kind, [texts[:100], [], texts[100:101], texts[101:]])
        under = Arrow(of_hints, [hints[:50], hints[50:]])
        told = world.columns(own, under, Column, 2)
        check(("arrow", kind), told.lists(), wanted)
        check("rows", (len(told), told.names), (len(texts), ALL))
    again = world.columns(own, None, ["e164"])
    # What is told is a table of one column of texts, and so is read again.
    check("again", world.columns(again, None, ["e164"]).lists(), again.lists())
    check("a table", refused(world.columns, told)[0], "TypeError")
    check("held", len([it for it in _arrow._held.values() if isinstance(it, _arrow._State)]), 0)
    told.__arrow_c_stream__(), told.__arrow_c_schema__()
    check("freed", len(_arrow._held), 0)


def pyarrow_is_spoken(world, pairs):
    import pyarrow as pa

    texts, hints = [it if isinstance(it, (str, type(None))) else it.decode("latin-1") for it, _ in pairs], [hint for _, hint in pairs]
    texts = [None if it == "\ud800" else it for it in texts]
    hints = [it if isinstance(it, (str, type(None))) else "\xff" for it in hints]
    wanted = world.columns(texts, hints, Column)
    for kind in pa.string(), pa.large_string(), pa.string_view(), pa.dictionary(pa.int32(), pa.string()), pa.binary(), pa.large_binary():
        own = pa.array(["x", *texts, None], pa.string()).cast(kind)[1:-1]
        under = pa.chunked_array([pa.array(hints[:77]), pa.array(hints[77:])])
        told = pa.table(world.columns(own, under, Column))
        told.validate(full=True)
        for name in ALL:
            words = told[name].to_pylist()
            if name in ("kind", "source"):
                words = [it and (Kind if name == "kind" else Source)[it] for it in words]
            check((str(kind), name), words, wanted[name])
    check("schema", pa.schema(world.columns(own, "NZ", Column)), told.schema)
    table = pa.table({"number": pa.chunked_array([texts[:9], texts[9:]])}).slice(5)
    check("slice", pa.table(world.columns(table, "NZ", ["e164"]))["e164"].to_pylist(), world.columns(texts[5:], "NZ", ["e164"])["e164"])
    check("no texts", refused(world.columns, pa.array([1, 2]))[0], "TypeError")
    check("nulls", pa.table(world.columns(pa.nulls(3), None, ["code"]))["code"].to_pylist(), [None] * 3)
    check("none", pa.table(world.columns(pa.array([], pa.string()), None, ["kind"])).num_rows, 0)
    own = pa.array(texts)
    chunk, = _arrow.chunks_of(own)
    check("no copy", chunk.data, own.buffers()[2].address)


def numpy_is_taken(world, pairs):
    import numpy as np

    texts, hints = map(list, zip(*pairs))
    wanted = world.columns(texts, hints, Column)
    told = world.columns(np.array(texts, object), np.array(hints, object), Column)
    for name in ALL:
        column = told[name].tolist()
        if name in ("kind", "source"):
            column = [None if it is None else (Kind if name == "kind" else Source)(it) for it in column]
        elif name == "refusal":
            column = [None if it is None else _calls.words_of(it) for it in column]
        check(("numpy", name), column, wanted[name])
    few = np.array(["03-331 6005", "call me"])
    check("numpy, str", world.columns(few, "NZ", ["e164"])["e164"].tolist(), ["+6433316005", None])
    check("numpy, bytes", world.columns(few.astype("S"), "NZ", ["e164"])["e164"].tolist(), ["+6433316005", None])
    check("numpy, none", world.columns(few[:0], "NZ", ["e164", "code"])["code"].tolist(), [])


def pandas_is_taken(world, pairs):
    import pandas as pd

    from phonenumber_proved import pandas as accessor

    texts, hints = map(list, zip(*pairs))
    wanted = world.columns(texts, hints, Column)
    index = [f"row {k}" for k in range(len(texts))]
    frame = world.columns(pd.Series(texts, index), pd.Series(hints, index), Column)
    check("index", frame.index.tolist(), index)
    for name in ALL:
        column = [None if pd.isna(it) else it for it in frame[name].tolist()]
        if name in ("kind", "source"):
            column = [it and (Kind if name == "kind" else Source)[it] for it in column]
        check(("pandas", name), column, wanted[name])
    kinds = {name: str(frame[name].dtype) for name in ("code", "value", "kind", "region", "validity", "is_number", "refusal")}
    check("types", kinds, {"code": "UInt16", "value": "UInt64", "kind": "category", "region": "category", "validity": "boolean",
                           "is_number": "bool", "refusal": "category"})
    accessor.use(world)
    series = pd.Series(["03-331 6005", None, float("nan"), pd.NA, "call me"], [3, 1, 4, 1, 5])
    check("accessor", series.phone.e164("NZ").fillna("").tolist(), ["+6433316005", "", "", "", ""])
    check("accessor", series.phone.columns("NZ", ["code"])["code"].isna().tolist(), [False, True, True, True, True])
    check("accessor", [call("NZ").iloc[0] for call in (
        series.phone.international, series.phone.national, series.phone.rfc3966, series.phone.kind, series.phone.region, series.phone.is_valid)],
        ["+64 3 331 6005", "03 331 6005", "tel:+64-3-331-6005", "FIXED_LINE", "NZ", True])
    check("accessor", series.phone.refusal("NZ").iloc[4], "not a number")
    accessor.use(None)
    if has("pyarrow"):
        text = pd.Series(["03-331 6005", None, "call me"], [7, 8, 9], "string[pyarrow]")
        told = world.columns(text, pd.Series(["NZ", "NZ", None]), ["e164", "refusal"])
        check("pyarrow", (told["e164"].fillna("").tolist(), told.index.tolist()), (["+6433316005", "", ""], [7, 8, 9]))
    check("none", world.columns(pd.Series([], dtype=object), None, Column).shape, (0, len(ALL)))


def polars_is_spoken(world):
    import polars as pl

    told = pl.DataFrame(world.columns(pl.Series(["03-331 6005", None, "call me", "a text of more than twelve characters"]), "NZ"))
    check("polars", told["e164"].to_list(), ["+6433316005", None, None, None])


def main():
    pairs = rows()
    with Database.load() as world:
        rows_are_those_of_single_calls(world, pairs)
        what_is_asked_is_looked_at(world)
        how_far_it_is_is_told(world)
        flags_are_bits()
        arrow_is_spoken(world, pairs)
        for name, case in ("pyarrow", pyarrow_is_spoken), ("numpy", numpy_is_taken), ("pandas", pandas_is_taken):
            if has(name):
                case(world, pairs)
        if has("polars"):
            polars_is_spoken(world)
    print(f"rows: {len(pairs)}")
    print(f"columns: {len(failed)} failed" if failed else "columns: ok")
    return 1 if failed else 0


if __name__ == "__main__":
    sys.exit(main())
