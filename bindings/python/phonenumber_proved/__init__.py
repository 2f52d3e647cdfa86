"""Phone numbers, parsed and formatted as crates/phone_c proves it. Over a shared library, by ctypes.

    >>> from phonenumber_proved import Database, Kind, Mode
    >>> with Database.load() as world:
    ...     number = world.parse("03-331 6005 ext. 12", hint="NZ")
    ...     print(number.e164, number.format(Mode.INTERNATIONAL))
    ...     print(number.kind.name, number.region, number.is_valid, number.extension)
    +6433316005 +64 3 331 6005 ext. 12
    FIXED_LINE NZ True 12
    >>> with Database.load() as world:
    ...     world.parse("call me")
    Traceback (most recent call last):
    ...
    phonenumber_proved.NoNumber: not a number
    >>> is_viable("call me"), is_viable("03-331 6005")
    (False, True)

Any number of threads may use a `Database`, `ShortNumbers` or `Prefixes` at once, any of them may
close it, and the child of a fork has it too. Threads share its metadata; those of all regions take
some 6 MB. `close`, or `with`, frees them. Other threads of Python run while something is opened or
closed, and while a long text is searched; each other call is shorter than the wait for them. A text
is `str` or UTF-8 in `bytes`; a lone surrogate, or bytes that aren't UTF-8, are an error.
PHONE_LIBRARY names the shared library, else `libphone.so` beside these files is taken, and else the
one that `make` leaves in bindings/c/out. The metadata are a file beside these, or else in the
library; PHONE_TABLE names another file.
`Database.columns` parses a column of texts at once, with any number of threads; the module
`phonenumber_proved.pandas` has it as the accessor `phone` of pandas' `Series`.
The module `phonenumber_proved.phonenumbers` has the names of the package `phonenumbers`.
"""

from ._calls import is_viable
from .columns import Column, Told
from .database import Alternates, Database, Found, Leniency, Sameness
from .errors import (
    BadDatabase, BadPrefixes, Closed, Error, NoNumber, UnknownCode, UnknownRegion,
)
from .field import Typing
from .layouts import Layout, Layouts
from .number import Kind, Mode, PhoneNumber, Possibility, Rules, Source
from .places import Atlas
from .prefixes import Prefixes
from .questions import (
    Cost, FactsAnywhere, Form, NumberFacts, NumberMatch, RegionFacts, extract, has_letters,
    is_geographical, mobile_token, normalize,
)
from .short import ShortFacts, ShortNumbers, SmsServices
from .tables import (
    ALTERNATES_TABLE, AREAS_TABLE, CARRIERS_TABLE, PLACES, SHORT_TABLE, SMS_TABLE, TABLE,
    TABLE_VERSION, TIME_ZONES_TABLE,
)
from .warming import warm

__version__ = "0.3.0"

__all__ = [
    "ALTERNATES_TABLE",
    "AREAS_TABLE",
    "Alternates",
    "Atlas",
    "BadDatabase",
    "BadPrefixes",
    "CARRIERS_TABLE",
    "Closed",
    "Column",
    "Cost",
    "Database",
    "Error",
    "FactsAnywhere",
    "Form",
    "Found",
    "Kind",
    "Layout",
    "Layouts",
    "Leniency",
    "Mode",
    "NoNumber",
    "NumberFacts",
    "NumberMatch",
    "PLACES",
    "PhoneNumber",
    "Possibility",
    "Prefixes",
    "RegionFacts",
    "Rules",
    "SHORT_TABLE",
    "SMS_TABLE",
    "Sameness",
    "ShortFacts",
    "ShortNumbers",
    "SmsServices",
    "Source",
    "TABLE",
    "TABLE_VERSION",
    "TIME_ZONES_TABLE",
    "Told",
    "Typing",
    "UnknownCode",
    "UnknownRegion",
    "__version__",
    "extract",
    "has_letters",
    "is_geographical",
    "is_viable",
    "mobile_token",
    "normalize",
    "warm",
]

# The place of a public name is this package, whatever file it stands in.
for _name in __all__:
    _it = globals()[_name]
    if getattr(_it, "__module__", "").startswith(__name__ + "."):
        _it.__module__ = __name__
del _name, _it
