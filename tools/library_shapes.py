"""tools/library_shapes.py: prints a C program which fails to compile where a type of include/covetrivet.h doesn't lie in memory as
the struct of crates/covetrivet_c/src/shapes.rt that crosses as it, and fails when it runs where the library says another size.

The offsets are those that C gives to fields of these types in this order, as #[repr(C)] promises. With a word of its own, it prints
the names that the library exports.
"""
import os
import re
import sys

TOP = os.path.dirname(os.path.dirname(os.path.realpath(__file__)))
CRATE = f"{TOP}/crates/covetrivet_c/src"
SIZES = {"u8": (1, 1), "u16": (2, 2), "u32": (4, 4), "u64": (8, 8), "Body": (32, 8)}
# Each struct, in the order of `covetrivet_size`, with the header's type.
TYPES = {
    "PlainLimits": "limits", "ElementOut": "element", "WorkOut": "work", "StatusOut": "status", "LookOut": "look", "DraftIn": "draft",
    "BornOut": "born", "ReleasedOut": "released", "RoomOut": "left", "CountsOut": "counts", "MovedOut": "moved",
}

# The handles that follow them, of which the library uses the first word.
HANDLES = ("manager", "caller")


def read(path):
    with open(path, encoding="utf-8") as it:
        return it.read()


def structs():
    """Returns the fields of each struct, with their types."""
    found = re.findall(r"#\[repr\(C\)\]\n(?:#[^\n]*\n)*pub struct (\w+) \{\n(.*?)\n\}", read(f"{CRATE}/shapes.rt"), re.S)
    return {name: re.findall(r"pub (\w+): (\w+),", body) for name, body in found}


def measure(name, known):
    """Returns the size and alignment of a type, and the offset of each of its fields."""
    if name in SIZES:
        return (*SIZES[name], {})
    at, most, offsets = 0, 1, {}
    for field, of in known[name]:
        size, align, _ = measure(of, known)
        at = -(-at // align) * align
        offsets[field], at, most = at, at + size, max(most, align)
    return -(-at // most) * most, most, offsets


def program():
    known = structs()
    assert set(known) == set(TYPES), set(known) ^ set(TYPES)
    lines = ["#include <stddef.h>", "#include <stdio.h>", "#include <covetrivet.h>"]
    runs = []
    for place, (name, of) in enumerate(TYPES.items()):
        size, _, offsets = measure(name, known)
        lines.append(f'_Static_assert(sizeof(covetrivet_{of}) == {size}, "covetrivet_{of}");')
        lines += [f'_Static_assert(offsetof(covetrivet_{of}, {field}) == {at}, "covetrivet_{of}.{field}");' for field, at in offsets.items()]
        runs.append(f'  if (covetrivet_size({place}) != sizeof(covetrivet_{of})) return puts("covetrivet_{of}"), 1;')
    for place, of in enumerate(HANDLES, len(TYPES)):
        lines.append(f'_Static_assert(offsetof(covetrivet_{of}, at) == 0, "covetrivet_{of}.at");')
        runs.append(f'  if (covetrivet_size({place}) != sizeof(void *)) return puts("covetrivet_{of}"), 1;')
    lines.append('_Static_assert(sizeof(covetrivet_caller) == 128, "two lines of the cache");')
    return "\n".join([*lines, "int main(void) {", *runs, f"  return covetrivet_size({len(TYPES) + len(HANDLES)}) != 0;", "}", ""])


def exports():
    """Returns the names of the functions that the library exports."""
    files = [read(f"{CRATE}/{it}") for it in sorted(os.listdir(CRATE)) if it.endswith(".rt")]
    return sorted(name for text in files for name in re.findall(r'extern "C" fn (covetrivet_\w+)', text))


if __name__ == "__main__":
    print("\n".join(exports()) if len(sys.argv) > 1 else program())
