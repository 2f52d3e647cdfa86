"""Locks that a forked process finds free."""

from __future__ import annotations

import os
import threading
import time
from typing import Any, Dict, List

_locks: List[Any] = []
_taken: Dict[int, List[Any]] = {}


def new_lock() -> Any:
    """A lock that threads share, for as long as the process lasts.

    A thread may take a lock that it has once more: a finalizer, or the handler of a signal, which
    Python runs between two steps of any function, may ask what is being asked.
    """
    _locks.append(threading.RLock())
    return _locks[-1]


def _take_all() -> None:
    """Before a fork: waits until no other thread has a lock, so that the child finds all free.

    Where one isn't given back for a while, all are, since its thread may wait for another.
    """
    while not all(map(_took, _locks)):
        _give_all()
        time.sleep(0.01)


def _took(lock: Any) -> bool:
    took: bool = lock.acquire(timeout=0.1)
    if took:
        _taken.setdefault(threading.get_ident(), []).append(lock)
    return took


def _give_all() -> None:
    """After it, in parent and child: gives back what this thread took."""
    for lock in _taken.pop(threading.get_ident(), []):
        lock.release()


os.register_at_fork(before=_take_all, after_in_parent=_give_all, after_in_child=_give_all)
