"""Makes the wheel: the package with the shared library, the tables and the licences inside. It is the build backend of
pyproject.toml, and needs Python alone.

usage: pip wheel --no-deps bindings/python        or pip install bindings/python
       bindings/python/make_wheel.py [--source | --tables] FOLDER

PHONE_LIBRARY names the shared library; else it is bindings/c/out/libphone.so, or the installed one that `pkg-config phonenumber-proved`
tells. PHONE_LICENCES is a file of the licences of all that is linked, else they are those of an installed library, or the repository's own. A source distribution has the package, the
tables and this file, and makes a wheel of the installed library. --tables makes a wheel of tables alone, the package
phonenumber_proved_tables, of libphonenumber's version: where it is installed and later, its tables are taken in place of the package's own.
PHONE_TABLES names the folder of the tables, as phone-renew writes them, else they are data's. The same files give the same bytes: the time of each is
SOURCE_DATE_EPOCH, else 1980.
"""
import base64
import gzip
import hashlib
import io
import os
import re
import struct
import subprocess
import sys
import tarfile
import time
import zipfile
from pathlib import Path

HERE = Path(__file__).resolve().parent
TOP = HERE.parents[1]
NAME = "phonenumber_proved"
# Where the tables and the licence are: in the repository, or in a source distribution.
DATA = HERE / "data" if (HERE / "data").is_dir() else TOP / "data"
OWN_LICENCE = HERE / "LICENSE" if (HERE / "LICENSE").is_file() else TOP / "LICENSE"
TABLES = ["world.json", "world.compact", "short.json", "sms.json", "alternates.json", "timezones.tsv", "areas.tsv", "carriers.tsv", "VERSION"]
# Areas, carriers and names of regions by language, and the licence of the names.
TABLES += sorted(str(it.relative_to(DATA)) for it in (DATA / "places").rglob("*") if it.is_file())
CLASSIFIERS = """Development Status :: 4 - Beta
Intended Audience :: Developers
License :: OSI Approved :: Apache Software License
Operating System :: POSIX :: Linux
Programming Language :: Python :: 3
Topic :: Communications :: Telephony
Topic :: Software Development :: Libraries :: Python Modules
Typing :: Typed"""
MACHINES = {62: "x86_64", 183: "aarch64"}


def version():
    """The version that the package tells."""
    return re.search(r'^__version__ = "(.*)"', (HERE / NAME / "__init__.py").read_text(), re.M)[1]


def texts_of(library):
    """The libraries that an ELF library of 64 bits needs, and the texts of its names."""
    start, = struct.unpack_from("<Q", library, 40)
    size, count = struct.unpack_from("<HH", library, 58)
    sections = [struct.unpack_from("<IIQQQQI", library, start + size * it) for it in range(count)]
    _, _, _, _, place, length, link = next(it for it in sections if it[1] == 6)  # the dynamic section
    _, _, _, _, at, names, _ = sections[link]
    texts = library[at : at + names]
    entries = struct.iter_unpack("<QQ", library[place : place + length])
    return {texts[value : texts.index(b"\0", value)] for kind, value in entries if kind == 1}, texts


def platform(library):
    """The platform that a library runs on, as wheels name it: a version of glibc where the library needs nothing else."""
    machine = MACHINES[int.from_bytes(library[18:20], "little")]
    needed, texts = texts_of(library)
    versions = [int(it) for it in re.findall(rb"GLIBC_2\.(\d+)", texts)]
    newest = max([17, *versions])
    # Version 2.17 has two names, of which older pips know the second alone.
    older = f".manylinux2014_{machine}" if newest == 17 else ""
    return f"manylinux_2_{newest}_{machine}{older}" if needed <= {b"libc.so.6"} else f"linux_{machine}"


def about():
    """What is told of the package."""
    classifiers = "\n".join(f"Classifier: {it}" for it in CLASSIFIERS.splitlines())
    return f"""Metadata-Version: 2.1
Name: phonenumber-proved
Version: {version()}
Summary: Phone numbers, parsed and formatted by a proved library
License: Apache-2.0
Keywords: phone,telephone,phonenumbers,libphonenumber,E.164
{classifiers}
Requires-Python: >=3.8
Description-Content-Type: text/markdown

{(HERE / "README.md").read_text(encoding="utf-8")}"""


def library_file():
    """The shared library."""
    named = os.environ.get("PHONE_LIBRARY")
    path = Path(named or TOP / "bindings" / "c" / "out" / "libphone.so")
    if not named and not path.exists():
        words = ["pkg-config", "--variable=libdir", "phonenumber-proved"]
        try:
            told = subprocess.run(words, stdout=subprocess.PIPE, stderr=subprocess.DEVNULL, text=True, check=False).stdout.strip()
        except OSError:
            told = ""
        path = Path(told, "libphonenumber-proved.so.3") if told else path
    if not path.exists():
        sys.exit(f"make_wheel: {path} is not there: install the library, whose pkg-config name is phonenumber-proved, or let "
                 "PHONE_LIBRARY name it; in the repository tools/bindings builds it")
    return path


def licences_file():
    """The licences of all that is linked: those that are named, those that stand beside an installed library, or the own one."""
    beside = library_file().parent
    found = [it / "share" / "doc" / "phonenumber-proved" / "LICENSES" for it in (beside.parent, beside.parent.parent)]
    return Path(os.environ.get("PHONE_LICENCES") or next((it for it in found if it.is_file()), OWN_LICENCE))


def metadata(tag):
    """The files of a wheel that tell of it, by their names."""
    python, abi, platforms = tag.split("-")
    tags = "".join(f"Tag: {python}-{abi}-{it}\n" for it in platforms.split("."))
    wheel = f"Wheel-Version: 1.0\nGenerator: make_wheel\nRoot-Is-Purelib: false\n{tags}"
    licences = licences_file()
    return {
        "METADATA": about().encode(), "WHEEL": wheel.encode(), "LICENSE": OWN_LICENCE.read_bytes(),
        "LICENSES": licences.read_bytes(), "TABLE_LICENSE": (DATA / "LICENSE").read_bytes(),
    }


def files():
    """The files of the package, by their names in the wheel, and the tag that fits them."""
    found = {str(it.relative_to(HERE)): it.read_bytes() for it in sorted((HERE / NAME).rglob("*.py"))}
    found[f"{NAME}/py.typed"] = b""
    found[f"{NAME}/libphone.so"] = library_file().read_bytes()
    for it in TABLES:
        found[f"{NAME}/data/{it}"] = (DATA / it).read_bytes()
    tag = "py3-none-" + platform(found[f"{NAME}/libphone.so"])
    recorded(found, f"{NAME}-{version()}.dist-info", metadata(tag))
    return found, tag


def recorded(found, info, told):
    """Adds the files that tell of a wheel, and the one that lists all."""
    found.update((f"{info}/{name}", data) for name, data in told.items())
    rows = [f"{name},sha256={digest(data)},{len(data)}\n" for name, data in found.items()]
    found[f"{info}/RECORD"] = "".join([*rows, f"{info}/RECORD,,\n"]).encode()


def build_tables(wheel_directory):
    """Writes the wheel of tables alone into a folder; its name."""
    tables = Path(os.environ.get("PHONE_TABLES") or DATA)
    told = (tables / "VERSION").read_text(encoding="ascii").split()
    name = f"{NAME}_tables"
    found = {f"{name}/__init__.py": f'"""The tables of {" ".join(told)}, which phonenumber_proved takes where its own are older."""\n'.encode()}
    # A renewed folder need not have places, of which the package then takes its own.
    found.update((f"{name}/{it}", (tables / it).read_bytes()) for it in TABLES if not it.startswith("places/") or (tables / it).is_file())
    about = f"""Metadata-Version: 2.1
Name: phonenumber-proved-tables
Version: {told[1]}
Summary: Tables of phone numbers for phonenumber-proved, from {" ".join(told)}
License: Apache-2.0
Requires-Python: >=3.8
"""
    tag = "py3-none-any"
    wheel = f"Wheel-Version: 1.0\nGenerator: make_wheel\nRoot-Is-Purelib: true\nTag: {tag}\n"
    recorded(found, f"{name}-{told[1]}.dist-info", {"METADATA": about.encode(), "WHEEL": wheel.encode(), "LICENSE": (DATA / "LICENSE").read_bytes()})
    return packed(wheel_directory, f"{name}-{told[1]}-{tag}.whl", found)


def digest(data):
    return base64.urlsafe_b64encode(hashlib.sha256(data).digest()).rstrip(b"=").decode()


def build_wheel(wheel_directory, config_settings=None, metadata_directory=None):
    """Writes the wheel into a folder; its name."""
    found, tag = files()
    return packed(wheel_directory, f"{NAME}-{version()}-{tag}.whl", found)


def packed(folder, name, found):
    """Writes files into a wheel of this name, each under its own; the name."""
    stamp = max(int(os.environ.get("SOURCE_DATE_EPOCH") or 0), 315532800)
    with zipfile.ZipFile(Path(folder) / name, "w") as wheel:
        for path, data in found.items():
            info = zipfile.ZipInfo(path, time.gmtime(stamp)[:6])
            info.compress_type, info.create_system, mode = zipfile.ZIP_DEFLATED, 3, 0o644
            info.external_attr = (0o100000 | (0o755 if path.endswith(".so") else mode)) << 16
            wheel.writestr(info, data)
    return name


def build_sdist(sdist_directory, config_settings=None):
    """Writes the source distribution into a folder; its name."""
    top = f"{NAME}-{version()}"
    found = {str(it.relative_to(HERE)): it.read_bytes() for it in sorted((HERE / NAME).rglob("*.py"))}
    found[f"{NAME}/py.typed"] = b""
    found.update((it, (HERE / it).read_bytes()) for it in ("README.md", "make_wheel.py", "pyproject.toml"))
    found.update((f"data/{it}", (DATA / it).read_bytes()) for it in [*TABLES, "LICENSE"])
    found.update({"LICENSE": OWN_LICENCE.read_bytes(), "PKG-INFO": about().encode()})
    stamp = int(os.environ.get("SOURCE_DATE_EPOCH") or 315532800)
    packed = io.BytesIO()
    with tarfile.open(fileobj=packed, mode="w", format=tarfile.PAX_FORMAT) as tar:
        for path in sorted(found):
            info = tarfile.TarInfo(f"{top}/{path}")
            info.size, info.mtime, info.mode = len(found[path]), stamp, 0o644
            tar.addfile(info, io.BytesIO(found[path]))
    with open(Path(sdist_directory) / f"{top}.tar.gz", "wb") as file:
        file.write(gzip.compress(packed.getvalue(), mtime=stamp))
    return f"{top}.tar.gz"


if __name__ == "__main__":
    words = sys.argv[1:]
    build = {"--source": build_sdist, "--tables": build_tables}.get(words[0] if words else "", build_wheel)
    words = words[build is not build_wheel:]
    if len(words) != 1 or words[0].startswith("-"):
        sys.exit(__doc__)
    print(build(words[0]))
