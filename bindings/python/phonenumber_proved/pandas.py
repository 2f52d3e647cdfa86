"""The accessor `phone` of pandas' `Series`: the columns of the texts in it.

    import phonenumber_proved.pandas
    frame["number"].phone.e164("NZ")
    frame["number"].phone.columns(frame["region"])

The table of the world is opened once, where it is first asked; `use` names another database.
"""

from __future__ import annotations

from typing import Any, Optional, Sequence, Union

import pandas

from ._locks import new_lock
from .columns import COLUMNS, Column, Progress
from .database import Database
from .number import Rules

_lock = new_lock()
_database: Optional[Database] = None


def use(database: Optional[Database]) -> None:
    """Names the database that is asked from now on; `None`: that of all regions."""
    global _database
    _database = database


def _world() -> Database:
    global _database
    with _lock:
        if _database is None:
            _database = Database.load()
        return _database


@pandas.api.extensions.register_series_accessor("phone")
class Phone:
    """Answers on the texts of a series, with one default region or one for each."""

    def __init__(self, series: Any) -> None:
        self._series = series

    def columns(
        self, hints: Any = None, columns: Sequence[Union[Column, str]] = COLUMNS,
        threads: Optional[int] = None, rules: Rules = Rules.LIBRARY,
        progress: Optional[Progress] = None,
    ) -> Any:
        """The data frame of these columns, as `Database.columns` makes it."""
        return _world().columns(self._series, hints, columns, threads, rules, progress)

    def _one(self, column: Column, hints: Any, rules: Rules) -> Any:
        return self.columns(hints, [column], None, rules)[column.name.lower()]

    def e164(self, hints: Any = None, rules: Rules = Rules.LIBRARY) -> Any:
        """The numbers' E.164 texts."""
        return self._one(Column.E164, hints, rules)

    def international(self, hints: Any = None, rules: Rules = Rules.LIBRARY) -> Any:
        """Their international texts."""
        return self._one(Column.INTERNATIONAL, hints, rules)

    def national(self, hints: Any = None, rules: Rules = Rules.LIBRARY) -> Any:
        """Their national texts."""
        return self._one(Column.NATIONAL, hints, rules)

    def rfc3966(self, hints: Any = None, rules: Rules = Rules.LIBRARY) -> Any:
        """Their texts of RFC 3966."""
        return self._one(Column.RFC3966, hints, rules)

    def kind(self, hints: Any = None, rules: Rules = Rules.LIBRARY) -> Any:
        """Their kinds."""
        return self._one(Column.KIND, hints, rules)

    def region(self, hints: Any = None, rules: Rules = Rules.LIBRARY) -> Any:
        """Their regions."""
        return self._one(Column.REGION, hints, rules)

    def is_valid(self, hints: Any = None, rules: Rules = Rules.LIBRARY) -> Any:
        """Whether they are valid; `NA` where there is no number."""
        return self._one(Column.VALIDITY, hints, rules)

    def refusal(self, hints: Any = None, rules: Rules = Rules.LIBRARY) -> Any:
        """Why texts are no numbers; `NA` where they are."""
        return self._one(Column.REFUSAL, hints, rules)
