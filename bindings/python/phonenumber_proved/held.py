"""What handles of the library hold."""

from __future__ import annotations

from pathlib import Path
from types import TracebackType
from typing import Any, Callable, List, NoReturn, Optional, Tuple, Type, TypeVar, Union

import os

from ._calls import MEMORY, OK, AtlasHandle, Handle, PrefixesHandle, Text, lib, long_lib
from ._locks import new_lock

Self = TypeVar("Self", bound="Held")
PathText = Union[str, "os.PathLike[str]"]

# Taken while a handle is made of another: no other call is on that one.
_sharing = new_lock()


class OwnHandle(Handle):
    """A handle that is closed once nothing holds it."""

    _close = long_lib.phone_close

    def _share(self, rules: int, mine: Handle) -> Any:
        """Opens a second handle on what is open behind this one, and gives the status."""
        return lib.phone_share_by(self, rules, mine)

    def __del__(self) -> None:
        self._close(self)


class OwnPrefixesHandle(PrefixesHandle):
    """The same of a table of prefixes, which has no rules."""

    _close = long_lib.phone_prefixes_close

    def _share(self, _: int, mine: PrefixesHandle) -> Any:
        return lib.phone_prefixes_share(self, mine)

    def __del__(self) -> None:
        self._close(self)


class OwnAtlasHandle(AtlasHandle):
    """The same of an atlas, of which no second one is made."""

    _close = long_lib.phone_atlas_close

    def __del__(self) -> None:
        self._close(self)


class Held:
    """Something open: used by any number of threads at once, and freed by `close`.

    Each call has a handle to itself. It isn't copied: two copies would own one thing. The child of
    a fork has it too.
    """

    _kind: Type[Any] = OwnHandle
    _first: Any
    _idle: Tuple[List[Any], List[Any]]

    def __init__(self, text: Text) -> None:
        raise NotImplementedError

    @classmethod
    def load(cls: Type[Self], path: PathText) -> Self:
        """Opens what a file holds."""
        return cls(Path(path).read_bytes())

    def _open(self, call: Callable[[Any], int]) -> int:
        """The status of a call that opens a handle. Of this one others are made."""
        first = self._kind()
        status = call(first)
        if status == OK:
            self._first, self._idle = first, ([], [])
        return status

    def _call(self, call: Callable[..., Any], *args: Any, rules: int = 0) -> Any:
        """What a call gives on a handle by these rules that no other call is on."""
        idle = self._idle[rules]
        try:
            handle = idle.pop()
        except IndexError:
            handle = self._another(rules)
        try:
            return call(handle, *args)
        finally:
            # Where all was closed meanwhile, nothing else has the list: the handle goes with it.
            idle.append(handle)

    def _another(self, rules: int) -> Any:
        """A handle more, closed where the first is."""
        handle = self._kind()
        with _sharing:
            status = self._first._share(rules, handle)
        if status == MEMORY:
            raise MemoryError
        return handle

    def close(self) -> None:
        """Frees it, once no call is on it; nothing where that was done. A later call fails."""
        self._first = self._kind()
        self._idle = ([], [])

    def __enter__(self: Self) -> Self:
        return self

    def __exit__(
        self,
        kind: Optional[Type[BaseException]],
        error: Optional[BaseException],
        trace: Optional[TracebackType],
    ) -> None:
        self.close()

    def __reduce_ex__(self, protocol: object) -> NoReturn:
        raise TypeError(f"a {type(self).__name__} is neither copied nor pickled")
