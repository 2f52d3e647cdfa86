#!/usr/bin/env python3
"""Makes an extension for DuckDB of a shared library, by the footer that DuckDB reads before it loads one.

usage: footer.py LIBRARY EXTENSION PLATFORM VERSION

The footer is a custom section in WebAssembly's form, under the name duckdb_signature: eight texts of
32 bytes, the last one first, filled up with zeros, and the 256 bytes of a signature, which are zeros
where there is none. The texts say from which version of DuckDB's C API on it may be loaded.
"""
import sys

NAME = b"duckdb_signature"
FIELD, FIELDS, SIGNATURE = 32, 8, 256
C_API = "v1.2.0"


def leb(number):
    """A number as WebAssembly writes it."""
    low = number & 0x7F
    return bytes([low]) if number < 0x80 else bytes([low | 0x80]) + leb(number >> 7)


def footer(platform, version):
    """The section of an extension for this platform, of this version."""
    texts = ["4", platform, C_API, version, "C_STRUCT", "", "", ""]
    assert len(texts) == FIELDS
    held = b"".join(text.encode("ascii").ljust(FIELD, b"\0") for text in reversed(texts)) + bytes(SIGNATURE)
    body = leb(len(NAME)) + NAME + leb(len(held)) + held
    return b"\0" + leb(len(body)) + body


def main(library, extension, platform, version):
    with open(library, "rb") as file:
        code = file.read()
    with open(extension, "wb") as file:
        file.write(code + footer(platform, version))


if __name__ == "__main__":
    if len(sys.argv) != 5:
        sys.exit(__doc__.strip())
    main(*sys.argv[1:])
