#!/usr/bin/env python3
"""Makes the declarations of the calls in Rust's sys/src/lib.rs and Python's _calls.py of c/phone.h, and compares the others with it.

usage: bindings/declarations.py [--write]

--write writes those two; without it they are compared, as are always the calls of crates/phone_c, c/world.c and c/newest.c, by arguments and answer,
each struct's fields in their order, and the numbers that have a name. No library is needed. Each difference is a line, and the status is
then 1; else the last line is `declarations: ok`.
"""
import ctypes
import enum
import os
import re
import sys
import textwrap
from pathlib import Path

BINDINGS = Path(__file__).resolve().parent
CRATES = BINDINGS.parent / "crates"
RUST = BINDINGS / "rust" / "sys" / "src" / "lib.rs"
PYTHON = BINDINGS / "python" / "phonenumber_proved" / "_calls.py"
# The names of a struct in the four places, each by its name in phone.h.
STRUCTS = {
    "Handle": "handle", "PrefixTable": "prefixes", "Prefixes": "prefixes", "PrefixesHandle": "prefixes", "Part": "part", "Number": "number",
    "AtlasHandle": "atlas", "Atlas": "atlas",
    "PlainFacts": "short_facts", "ShortFacts": "short_facts", "Facts": "short_facts", "Place": "place",
    "RegionFacts": "region_facts", "NumberFacts": "number_facts", "FactsAnywhere": "facts_anywhere",
    "Layout": "texts", "Texts": "texts", "Narrow": "narrow_texts", "NarrowTexts": "narrow_texts",
}
# What the names of a set's values begin with in phone.h.
FRONTS = {
    "Mode": "MODE_", "Source": "SOURCE_", "Kind": "KIND_", "Type": "KIND_", "Cost": "COST_", "Possibility": "LENGTH_",
    "Sameness": "MATCH_", "Leniency": "IF_", "Form": "FORM_", "Column": "COLUMN_",
}
C_TYPES = {"uint8_t": "u8", "uint16_t": "u16", "uint32_t": "u32", "phone_status": "u32", "uint64_t": "u64", "size_t": "usize", "void": "u8"}
differences = []


def named(name):
    return STRUCTS.get(name, name)


def of_c(text):
    """A type of phone.h: `const u8*` of `const uint8_t *text`."""
    const, name, star = re.fullmatch(r"(const )?(\w+) (\*?)\w+", " ".join(text.split())).groups()
    return (const or "") + C_TYPES.get(name, name.removeprefix("phone_")) + star


def listed(text, between):
    """The names and types of a struct's fields, or of a call's arguments."""
    return [(re.search(r"(\w+)\s*$", it)[1], of_c(it)) for it in text.split(between) if it.strip()]


def c_calls(text, end):
    """The calls that C declares, or defines, by what stands behind their arguments."""
    calls = {}
    for answer, name, args in re.findall(r"^(uint32_t |phone_status |void |const uint8_t \*)phone_(\w+)\(([^)]*)\)" + end, text, re.MULTILINE):
        calls[name] = ([] if args == "void" else listed(args, ","), "" if answer == "void " else of_c(answer + "it"))
    return calls


def header():
    text = re.sub(r"/\*.*?\*/", "", (BINDINGS / "c" / "phone.h").read_text(), flags=re.DOTALL)
    calls = c_calls(text, ";")
    structs = {}
    for fields, name in re.findall(r"typedef struct \{([^}]*)\} phone_(\w+);", text):
        structs[name] = listed(fields, ";")
    numbers, at = {}, 0
    for name, number in re.findall(r"PHONE_(\w+)(?: = (\d+))?(?=[,\s}])", "".join(re.findall(r"enum \{(.*?)\};", text, re.DOTALL))):
        at = int(number) if number else at + 1
        numbers[name] = at
    numbers["VERSION"] = int(re.search(r"PHONE_VERSION (\d+)u", text)[1])
    return calls, structs, numbers


def rust_call(name, args, answer):
    def pointer(it):
        return ("*const " if it[1] else "*mut ") + (it[2] if it[2] in C_TYPES.values() else it[2].title().replace("_", ""))
    given, last = ", ".join(f"{it}: {kind}" for it, kind in args), f" -> {answer};" if answer else ";"
    line = re.sub(r"(const )?(\w+)\*", pointer, f"    pub fn phone_{name}({given}){last}\n")
    return line if len(line) <= 121 else re.sub(r"(?<=\()|(?<=,) ", "\n        ", line).replace(")", ",\n    )")


def python_call(name, args, answer):
    """A line of Python's table: the answer's type and the arguments', as `_declare` names them."""
    given = "".join(f", {it}: {kind}" for it, kind in args)
    given = re.sub(r"(\w+): (const )?u8\*(?=, \1_len:)", "text", given)  # bytes whose length comes next
    given = re.sub(r"\w+: (const )?", "", given)
    given = re.sub(r"(u\d+|usize)\*", r"pointer(\1)", given).replace("usize", "size").replace("*", "")
    kinds = ("address" if "*" in answer else answer or "None") + given
    line = f'        "{name}": [{kinds}],\n'
    if len(line) <= 101:
        return line
    rows = textwrap.indent(textwrap.fill(kinds + ",", 88), 12 * " ")
    return f'        "{name}": [\n{rows}\n        ],\n'


def make(calls, write):
    """Has the calls written in the braces that open behind the mark in Rust's file and Python's, or compared with what stands there."""
    for file, call in ((RUST, rust_call), (PYTHON, python_call)):
        front, told, end = re.fullmatch(r"(.*Made by `bindings/d[^{]*\{\n)([^}]*?)( *\}\n.*)", file.read_text(), re.DOTALL).groups()
        made = "".join(call(name, *it) for name, it in calls.items())
        if write:
            file.write_text(front + made + end)
        elif told != made:
            differences.append(f"{file.relative_to(BINDINGS)}: its calls aren't what is made of phone.h: --write writes that")


def of_rust(text):
    """Types of Rust or Rattle: a slice is a pointer and a length."""
    text = re.sub(r"'\w+ |<'_>", "", text.strip())
    if slice := re.fullmatch(r"&(mut )?\[(\w+)\]", text):
        return [("" if slice[1] else "const ") + named(slice[2]) + "*", "usize"]
    sign, name = re.fullmatch(r"(&mut |&|\*mut |\*const )?(\w+)", text).groups()
    const = "const " if sign in ("&", "*const ") else ""
    return [const + named(name) + ("*" if sign else "")]


def rust_calls(text):
    calls = {}
    for name, args, answer in re.findall(r'extern "C" fn phone_(\w+)\(([^)]*)\)(?: -> (\w+))?', text):
        given = [it.split(":")[1].strip() for it in args.split(",") if it.strip()]
        calls[name] = ([kind for it in given if it not in ("Global", "alloc::Global") for kind in of_rust(it)], answer)
    return calls


def rust_structs(text):
    structs = {}
    struct = r"#\[repr\(C\)\](?:\s*#\[[^\n]*\])*\s*pub(?:\(crate\))? struct (\w+)(?:<'a>)? \{(.*?)\n\}"
    for name, fields in re.findall(struct, text, re.DOTALL):
        found = re.findall(r"^ *pub(?:\(crate\))? (\w+): ([^,\n]+),$", fields, re.MULTILINE)
        structs[named(name)] = [it for field, kind in found for it in zip((field, field + "_len"), of_rust(kind))]
    return structs


def crate_numbers(text):
    """The statuses and the version of the crate."""
    front = {"CLOSED": "IS_CLOSED"}
    return {front.get(name, name): int(it) for name, it in re.findall(r"pub const (\w+): u32 = (\d+);", text)}


def python():
    """The structs and numbers of Python, read over a library that has every call."""
    class Call:
        def __call__(self):
            return header()[2]["VERSION"]

    class Library:
        def __init__(self, path):
            pass

        def __getattr__(self, name):
            setattr(self, name, Call())
            return getattr(self, name)

    ctypes.CDLL = ctypes.PyDLL = Library
    os.environ["PHONE_LIBRARY"] = "none"
    sys.path.insert(0, str(BINDINGS / "python"))
    import phonenumber_proved
    from phonenumber_proved import _calls

    kinds = {ctypes.c_uint8: "u8", ctypes.c_uint16: "u16", ctypes.c_uint32: "u32", ctypes.c_uint64: "u64", ctypes.c_void_p: "u8*"}
    kinds.update({ctypes.POINTER(it): kinds[it] + "*" for it in (ctypes.c_uint32, ctypes.c_uint64)})
    structs = [it for it in vars(_calls).values() if isinstance(it, type) and issubclass(it, ctypes.Structure)]
    kinds.update({it: named(it.__name__) for it in structs})
    fields = {named(it.__name__): [(name, kinds[kind]) for name, kind in it._fields_] for it in structs}
    numbers = {name: it for name, it in vars(_calls).items() if name.isupper() and isinstance(it, int)}
    for it in vars(phonenumber_proved).values():
        if isinstance(it, type) and issubclass(it, enum.IntEnum):
            front = FRONTS.get(it.__name__, "")
            numbers.update({front + member.name: member.value for member in it})
    return fields, numbers


def rust_numbers():
    """The numbers of Rust's declarations, and the places of the variants of Rust's enums."""
    text = RUST.read_text()
    numbers = {name: int(it) for name, it in re.findall(r"const (\w+): u32 = (\d+);", text)}
    for file, name in (("number", "Mode"), ("number", "Source"), ("number", "Type"), ("database", "Rules"), ("short", "Cost"),
                       ("possible", "Possibility"), ("possible", "Sameness"), ("found", "Leniency"), ("questions", "NumberMatch"),
                       ("questions", "Form")):
        body = re.search(r"pub enum " + name + r" \{(.*?)\n\}", (BINDINGS / "rust" / "src" / f"{file}.rs").read_text(), re.DOTALL)[1]
        for place, variant in enumerate(re.findall(r"^ +([A-Z]\w*),$", body, re.MULTILINE)):
            snake = re.sub(r"(?<=[a-z])(?=[A-Z])|(?<=[A-Z])(?=[A-Z][a-z])", "_", variant).upper()
            numbers[FRONTS.get(name, "") + snake] = place
    return numbers


def compare(where, what, told, wanted, whole=False):
    for name in sorted(set(told) | (set(wanted) if whole else set())):
        if told.get(name) != wanted.get(name):
            differences.append(f"{where}: {what} {name}: {told.get(name)}, in phone.h {wanted.get(name)}")


def main(write):
    calls, structs, numbers = header()
    make(calls, write)
    crate = "".join(file.read_text() for file in sorted(CRATES.glob("phone_c*/src/*.rt")))
    world = c_calls("".join((BINDINGS / "c" / name).read_text() for name in ("world.c", "newest.c")), r" \{")
    nameless, world = ({name: ([kind for _, kind in args], answer) for name, (args, answer) in it.items()} for it in (calls, world))
    compare("crates/phone_c, c/world.c, c/newest.c", "call", rust_calls(crate) | world, nameless, whole=True)
    compare("crates/phone_c", "struct", rust_structs(crate), structs)
    compare("crates/phone_c", "number", crate_numbers(crate), numbers)
    compare("sys/src/lib.rs", "struct", rust_structs(RUST.read_text()), structs, whole=True)
    compare("Rust", "number", rust_numbers(), numbers)
    python_structs, python_numbers = python()
    # What ctypes says of a pointer is not whether it is only read by.
    wide = {name: [(field, kind.replace("usize", "u64").removeprefix("const ")) for field, kind in fields] for name, fields in structs.items()}
    compare("_calls.py", "struct", python_structs, wide, whole=True)
    compare("Python", "number", python_numbers, numbers)
    for it in differences:
        print(it)
    print(f"declarations: {len(differences)} differ" if differences else "declarations: ok")
    return 1 if differences else 0


if __name__ == "__main__":
    sys.exit(main(sys.argv[1:] == ["--write"]))
