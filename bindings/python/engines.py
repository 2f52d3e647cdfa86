"""Columns of many lines, by each engine in Python, against the report: engines.py [--threads N] [--only ENGINES] LINES ANSWERS

LINES and ANSWERS are those of tools/million-lines. ENGINES are some of `list numpy pandas arrow dask`, one word, with commas between; those
whose package isn't there are told of and left out. Each engine's rows are compared with ANSWERS. Told are the seconds of each by one thread
and by N, for lists and Arrow in turn with those of N processes that have a part each; and what the calls for one text would take, by
stretches of rows that they and lists are asked in turn. Times are of the processor where one thread works, else of the clock; TURNS in the
environment is how often each is timed, 3 times where it isn't set. The last line is `engines: ok`.
"""

import importlib.util
import multiprocessing
import os
import sys
import threading
import time
from pathlib import Path

from phonenumber_proved import Database, Kind, Mode, NoNumber, UnknownRegion

COLUMNS = ("e164", "international", "national", "rfc3966", "kind", "region", "validity", "is_number")
STRETCH = 1000
TURNS = int(os.environ.get("TURNS", "3"))
# So many seconds a process is waited for.
WAIT = 600
failed = []


def lines_of(path):
    rows = [line.split("\t", 1) for line in Path(path).read_text(encoding="utf-8").split("\n")[:-1]]
    return [text for _, text in rows], [None if hint == "-" else hint for hint, _ in rows]


def word(kind):
    """A kind as the report tells it."""
    name = kind if isinstance(kind, str) else Kind(kind).name
    return "".join(it.capitalize() for it in name.split("_"))


def line_of(e164, international, national, rfc3966, kind, region, validity, is_number):
    if not is_number:
        return "error"
    return "\t".join([e164, international, national, rfc3966, word(kind), region or "-", "valid" if validity else "invalid"])


def loop(world, texts, hints):
    """The calls for one text, of each text."""
    out = []
    for text, hint in zip(texts, hints):
        try:
            it = world.parse(text, hint)
        except (NoNumber, UnknownRegion):
            out.append("error")
            continue
        out.append(line_of(*(it.format(mode) for mode in Mode), it.kind, it.region, it.is_valid, True))
    return out


def compare(engine, told, answers):
    differ = [k for k, (one, other) in enumerate(zip(told, answers)) if one != other]
    if differ or len(told) != len(answers):
        failed.append(engine)
        print(f"{engine}: {len(differ)} rows differ, {len(told)} of {len(answers)}; the first: {[(told[k], answers[k]) for k in differ[:2]]}")


def rows_of(columns):
    return [line_of(*row) for row in zip(*(columns[it] for it in COLUMNS))]


def given_to(engine, texts, hints):
    """The texts and hints in the form that an engine has."""
    if engine == "numpy":
        import numpy
        return numpy.array(texts), hints
    if engine == "pandas":
        import pandas
        return pandas.Series(texts), pandas.Series(hints)
    if engine == "arrow":
        import pyarrow
        return pyarrow.array(texts), pyarrow.array(hints)
    return texts, hints


def asked(engine, world, given, threads, columns=COLUMNS):
    """What columns tell by as many threads: of Arrow as its own table."""
    told = world.columns(*given, columns, threads)
    if engine != "arrow":
        return told
    import pyarrow
    return pyarrow.table(told)


def timed(engine, world, given, threads, columns=COLUMNS):
    """The same, and its seconds."""
    clock = time.process_time if threads == 1 else time.perf_counter
    began = clock()
    told = asked(engine, world, given, threads, columns)
    return told, clock() - began


def lines_told(engine, told):
    """What an engine tells, as lines."""
    if engine == "pandas":
        told = {name: told[name].astype(object).where(told[name].notna(), None).tolist() for name in COLUMNS}
    elif engine == "arrow":
        told = {name: told.column(name).to_pylist() for name in COLUMNS}
    return rows_of(told)


class Processes:
    """As many processes as threads, each of which has a table and a part of the rows."""

    def __init__(self, engine, texts, hints, threads):
        context = multiprocessing.get_context("fork")
        self.start, self.end = context.Barrier(threads + 1), context.Barrier(threads + 1)
        parts = [slice(k * len(texts) // threads, (k + 1) * len(texts) // threads) for k in range(threads)]
        self.all = [context.Process(target=self._works, args=(engine, texts[it], hints[it])) for it in parts]
        for it in self.all:
            it.start()
        self.seconds()  # what is read first comes into the processor's cache

    def seconds(self):
        """The seconds in which all tell their parts."""
        self.start.wait(WAIT)
        began = time.perf_counter()
        self.end.wait(WAIT)
        return time.perf_counter() - began

    def close(self):
        self.start.abort()
        for it in self.all:
            it.join()

    def _works(self, engine, texts, hints):
        given = given_to(engine, texts, hints)
        with Database.load() as world:
            try:
                while True:
                    self.start.wait(WAIT)
                    told = asked(engine, world, given, 1)
                    self.end.wait(WAIT)
                    del told
            except threading.BrokenBarrierError:
                return


def in_turn(world, texts, hints):
    """Microseconds a row of the column and of the loop, asked stretch by stretch in turn: the middle of each."""
    column, single = [], []
    starts = range(0, len(texts) - STRETCH + 1, max(STRETCH, len(texts) // 40))
    for start in starts:
        piece, own = texts[start : start + STRETCH], hints[start : start + STRETCH]
        for seconds, ask in ((column, lambda: rows_of(world.columns(piece, own, COLUMNS, 1))), (single, lambda: loop(world, piece, own))):
            began = time.process_time()
            ask()
            seconds.append((time.process_time() - began) / STRETCH * 1e6)
    return middle(column), middle(single), middle([a / b for a, b in zip(column, single)])


def tell(what, seconds):
    print(f"{what}: {seconds:.3f} s", flush=True)


def middle(of):
    return sorted(of)[len(of) // 2]


def has(name):
    found = importlib.util.find_spec(name) is not None
    if not found:
        print(f"{name}: not tried, since it is not there")
    return found


def by_dask(path, answers):
    """Dask on four workers of this machine, each with a table of its own."""
    import pandas
    from dask import dataframe
    from distributed import Client

    texts, hints = lines_of(path)
    frame = dataframe.from_pandas(pandas.DataFrame({"text": texts, "hint": hints}), npartitions=16)
    with Client(n_workers=4, threads_per_worker=1, dashboard_address=None) as client:
        began = time.perf_counter()
        told = frame.map_partitions(_part_of_frame, meta=pandas.Series(dtype=object)).compute()
        seconds = time.perf_counter() - began
        client.shutdown()
    compare("dask", told.tolist(), answers)
    tell("dask, 4 processes", seconds)


def _part_of_frame(part):
    import pandas
    import phonenumber_proved.pandas as own

    hints = part["hint"].astype(object).where(part["hint"].notna(), None)
    told = own._world().columns(part["text"].tolist(), hints.tolist(), COLUMNS, 1)
    return pandas.Series(rows_of(told), index=part.index, dtype=object)


def main():
    words, threads, only = sys.argv[1:], 4, "list,numpy,pandas,arrow,dask"
    while words and words[0] in ("--threads", "--only"):
        if words[0] == "--threads":
            threads = int(words[1])
        else:
            only = words[1]
        del words[:2]
    if len(words) != 2:
        sys.exit(__doc__)
    texts, hints = lines_of(words[0])
    answers = Path(words[1]).read_text(encoding="utf-8").split("\n")[:-1]
    packages = {"list": "sys", "numpy": "numpy", "pandas": "pandas", "arrow": "pyarrow", "dask": "distributed"}
    with Database.load() as world:
        for engine in only.split(","):
            if not has(packages[engine]):
                continue
            if engine == "dask":
                by_dask(words[0], answers)
                continue
            if engine == "list":
                column, single, ratio = in_turn(world, texts, hints)
                print(f"column {column:.2f} us a row, single calls {single:.2f}: {ratio:.2f}")
                tell("list, single calls", len(texts) * single / 1e6)
            given = given_to(engine, texts, hints)
            for count in 1, threads:
                compare(engine, lines_told(engine, asked(engine, world, given, count)), answers)
            for _ in range(TURNS):
                tell(f"{engine}, 1 thread", timed(engine, world, given, 1)[1])
                if engine == "arrow":
                    tell("arrow, E.164 alone, 1 thread", timed(engine, world, given, 1, ("e164",))[1])
            beside = Processes(engine, texts, hints, threads) if engine in ("list", "arrow") else None
            for _ in range(TURNS):
                tell(f"{engine}, {threads} threads", timed(engine, world, given, threads)[1])
                if beside:
                    tell(f"{engine}, {threads} processes", beside.seconds())
            if beside:
                beside.close()
    print(f"engines: {len(failed)} failed" if failed else f"engines: ok, {len(texts)} rows")
    return 1 if failed else 0


if __name__ == "__main__":
    sys.exit(main())
