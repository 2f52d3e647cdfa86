"""What threads and forked processes count on: threads.py. The last line is `threads: ok`; else a line tells each case that isn't so."""

import multiprocessing
import os
import signal
import sys
import threading
import time
import warnings
from concurrent.futures import ProcessPoolExecutor, ThreadPoolExecutor

from phonenumber_proved import (
    CARRIERS_TABLE, Closed, Database, Mode, NoNumber, Prefixes, Rules, ShortNumbers, _locks, _regions, held, phonenumbers,
)

failed = []
# A search in it lets other threads run, and forks.
LONG = "Ring 03-331 6005, from Monday to Friday somebody answers it. " + "It is closed on other days. " * 200
TEXTS = ["03-331 6005", "+64 21 387 835 ext. 12", "call me", "+1 650 253 0000", "+44 20 7946 0018"] * 20


def check(case, told, wanted):
    if told != wanted:
        failed.append(case)
        print(f"{case}: {told!r}, not {wanted!r}")


def elsewhere(call):
    """What a call gives in a thread of its own."""
    with ThreadPoolExecutor(1) as thread:
        return thread.submit(call).result()


def asked(world, text):
    try:
        number = world.parse(text, "NZ")
    except NoNumber as error:
        return str(error)
    by_crate = world.report(text, "NZ", Rules.CRATE)
    return number.e164, number.format(Mode.NATIONAL), number.kind, number.region, number.is_valid, world.typed(text, "NZ"), by_crate


def threads_use_one_database(world, prefixes, table):
    def told(text):
        return asked(world, text), prefixes.longest("6421387835"), table.short("NZ", "111")

    wanted, before = [told(text) for text in TEXTS], memory()
    with ThreadPoolExecutor(8) as threads:
        check("at once", list(threads.map(told, TEXTS)), wanted)
        check("found at once", set(threads.map(lambda _: len(world.find(LONG, "NZ")), range(40))), {1})
    check("one table", memory() - before < 30_000_000, True)
    check("handles", [len(idle) <= 8 for it in (world, prefixes, table) for idle in it._idle], [True] * 6)


def memory():
    """What the system counts of this process's, in bytes."""
    with open("/proc/self/statm", encoding="ascii") as file:
        return int(file.read().split()[1]) * os.sysconf("SC_PAGE_SIZE")


def what_is_open_goes_from_thread_to_thread():
    """Opened in one thread, used in another, closed in a third, or freed by whichever drops it last."""
    freed = []

    class Handle(held.OwnHandle):
        @staticmethod
        def _close(handle):
            if handle.at:
                freed.append(threading.get_ident())
            held.OwnHandle._close(handle)

    class Watched(Database):
        _kind = Handle

    world = elsewhere(lambda: Watched("[]"))
    check("used", elsewhere(world.regions), [])
    check("closed", (elsewhere(world.close), elsewhere(world.close)), (None, None))
    check("freed once", (len(freed), threading.get_ident() in freed), (2, False))
    freed.clear()
    worlds = [elsewhere(lambda: Watched("[]"))]
    check("used again", elsewhere(worlds[0].regions), [])
    world = None
    check("last", freed, [])
    elsewhere(worlds.clear)
    check("dropped elsewhere", (len(freed), threading.get_ident() in freed), (2, False))


def what_is_closed_beside_calls_is_freed():
    """A call that is on it gives its answer, and each later one is refused."""
    world, told = Database.load(), []
    wanted = asked(world, TEXTS[0])

    def ask():
        try:
            while len(told) < 1_000_000:
                told.append(asked(world, TEXTS[0]) == wanted and len(world.find(LONG, "NZ")) == 1)
        except Closed:
            return True

    with ThreadPoolExecutor(4) as threads:
        ended = [threads.submit(ask) for _ in range(4)]
        while len(told) < 100:
            time.sleep(0.001)
        world.close()
        check("ended", [it.result() for it in ended], [True] * 4)
    check("answered", all(told), True)
    check("no handle is open", [it.at for idle in world._idle for it in idle if it.at], [])


def a_signal_may_ask_too(world):
    """A handler runs between two steps of the thread that asks."""
    told = []
    signal.signal(signal.SIGALRM, lambda *_: told.append(asked(world, TEXTS[0])))
    signal.setitimer(signal.ITIMER_REAL, 0.005, 0.005)
    wanted = asked(world, TEXTS[0])
    while len(told) < 50:
        check("asked", asked(world, TEXTS[0]), wanted)
    signal.setitimer(signal.ITIMER_REAL, 0)
    signal.signal(signal.SIGALRM, signal.SIG_DFL)
    check("signals", told, [wanted] * len(told))


def forks_wait_for_what_waits_for_them(world):
    """A thread that has one lock, and then wants another, gets it beside a fork."""
    has_one, told = threading.Event(), []

    def ask():
        with _regions._opening:
            has_one.set()
            time.sleep(0.2)
            with Database("[]") as other:
                told.append(other.regions())

    thread = threading.Thread(target=ask)
    thread.start()
    has_one.wait()
    child = os.fork()
    if not child:
        signal.alarm(20)
        os._exit(0 if asked(world, TEXTS[0]) else 1)
    check("forked", (ends_well(child), told), (True, [[]]))
    thread.join()


def ends_well(child):
    """Whether a child ends with status 0: by a signal it doesn't, where it would wait for ever."""
    return os.waitpid(child, 0)[1] == 0


def children_have_what_is_open(world, prefixes):
    """Processes are forked while threads ask."""
    wanted, stop, rounds = asked(world, TEXTS[0]), threading.Event(), []

    def ask():
        while not stop.is_set():
            rounds.append(asked(world, TEXTS[0]) == wanted and phonenumbers.parse("+64 3 331 6005").country_code == 64)
            rounds.append(len(world.find(LONG, "NZ")) == 1 and Database("[]").regions() == [])

    threads = [threading.Thread(target=ask) for _ in range(4)]
    for it in threads:
        it.start()
    for _ in range(20):
        child = os.fork()
        if not child:
            signal.alarm(20)
            is_same = asked(world, TEXTS[0]) == wanted and prefixes.longest("6421387835") is not None
            names = phonenumbers.parse("+64 3 331 6005"), phonenumbers.parse("0211234567", "NZ")
            os._exit(0 if is_same and all(map(phonenumbers.is_possible_number, names)) else 1)
        check("child", ends_well(child), True)
    stop.set()
    for it in threads:
        it.join()
    check("threads beside forks", (len(rounds) > 100, all(rounds)), (True, True))
    check("locks given back", _locks._taken, {})


def of_names(text):
    """What a worker of a pool tells, under the names of `phonenumbers`."""
    number = phonenumbers.parse(text, "NZ")
    return phonenumbers.format_number(number, phonenumbers.PhoneNumberFormat.NATIONAL)


def pools_of_processes():
    """Workers that were forked have the table that stands open; others open their own. Numbers go between, databases don't."""
    texts = [text for text in TEXTS if text != "call me"]
    wanted = [of_names(text) for text in texts]
    for way in "fork", "spawn":
        with ProcessPoolExecutor(2, multiprocessing.get_context(way)) as workers:
            check(way, list(workers.map(of_names, texts)), wanted)


def threads_ask_one_table():
    """Under the names of `phonenumbers` all threads have one table, opened by the first."""
    with ThreadPoolExecutor(8) as threads:
        worlds = set(threads.map(lambda _: id(_regions.world()), range(40)))
        check("names", set(threads.map(of_names, ["03-331 6005"] * 40)), {of_names("03-331 6005")})
    check("one table", worlds, {id(_regions.world())})


def main():
    warnings.simplefilter("ignore", DeprecationWarning)  # later versions of Python warn of a fork beside threads
    threads_ask_one_table()
    what_is_open_goes_from_thread_to_thread()
    what_is_closed_beside_calls_is_freed()
    with Database.load() as world, Prefixes.load(CARRIERS_TABLE) as prefixes, ShortNumbers.load() as table:
        threads_use_one_database(world, prefixes, table)
        a_signal_may_ask_too(world)
        children_have_what_is_open(world, prefixes)
        forks_wait_for_what_waits_for_them(world)
    pools_of_processes()
    print(f"threads: {len(failed)} failed" if failed else "threads: ok")
    return 1 if failed else 0


if __name__ == "__main__":
    sys.exit(main())
