"""The module `phonenumbers.asyoutypeformatter`: a number as it is typed."""

from __future__ import annotations

from . import AsYouTypeFormatter

__all__ = [
    "AsYouTypeFormatter",
]
