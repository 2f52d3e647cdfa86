"""What is opened in the background."""

from __future__ import annotations

import threading

from . import _regions


def warm() -> threading.Thread:
    """Opens the metadata that `phonenumber_proved.phonenumbers` asks, in a thread of its own.

    The first call of a program then needn't wait for it: it waits for the thread at most. What
    `Database.load` opens is separate, and isn't kept.

    >>> warm().join()
    """

    def opened() -> None:
        _regions.world()
        _regions.regions_by_code()

    thread = threading.Thread(target=opened, name="phonenumber_proved.warm", daemon=True)
    thread.start()
    return thread
