"""The interface in Python: python/histdesk/native/interface.py, for ctypes, struct and numpy."""

import textwrap
from collections.abc import Iterator
from typing import NamedTuple

from interface import PLAIN, Call, Enum, Interface, Member, Struct, Wrong

WIDTH = 128
HEAD = '''\
"""The library's numbers, structs and calls, which `histdesk.h` describes. build/schema makes this file of the folder schema.

Structs that come in great numbers also have a `struct.Struct`, and fields from which `arrays` makes types for numpy: both flat,
with members of members as fields of their own.
"""

from ctypes import POINTER, Structure, {types}
from struct import Struct
'''
RETURNS = {"code": "c_uint32", "size": "c_size_t", "bool": "c_bool", "nothing": "None"}
# Such 64-bit numbers are far below 2^63: numpy has them with a sign, so that differences of them are right.
SIGNED = ("us", "stamp", "bytes")


class Leaf(NamedTuple):
    """A field of a flat struct: its type is text for the bytes of a name; `length` is 0 if it is no array."""

    name: str
    kind: str
    length: int
    unit: str
    offset: int

    @property
    def alignment(self) -> int:
        """How its offset is aligned, which is the size of one of its numbers, in bytes."""
        return 1 if self.kind == "text" else PLAIN[self.kind].size

    @property
    def size(self) -> int:
        """Its size in bytes."""
        return self.alignment * (self.length or 1)

    @property
    def in_struct(self) -> str:
        """Its code in a format of `struct`."""
        return f"{self.length or ''}{'s' if self.kind == 'text' else PLAIN[self.kind].in_struct}"

    @property
    def in_numpy(self) -> str:
        """Its type, as numpy takes it, and its shape if it is an array."""
        if self.kind == "text":
            return f'"S{self.length}"'
        kind = "i8" if self.kind == "u64" and self.unit in SIGNED else PLAIN[self.kind].in_numpy
        return f'"={kind}"' + (f", ({self.length},)" if self.length else "")


def class_name(name: str) -> str:
    return "".join(map(str.capitalize, name.split("_")))


def leaves(interface: Interface, struct: Struct, front: str = "", base: int = 0) -> Iterator[Leaf]:
    """Go through the fields of a struct and of those in it."""
    for member in struct.members:
        name, at = front + member.name, base + member.offset
        if member.kind == "name":
            text, length = interface.structs["name"].members
            yield Leaf(name, "text", text.length, "", at)
            yield Leaf(f"{name}_{length.name}", length.kind, 0, length.unit, at + length.offset)
        elif member.kind in interface.structs:
            inner = interface.structs[member.kind]
            # A member that is called as its type needs no more to be told apart.
            own = front if member.name == member.kind else f"{name}_"
            for number in range(member.length or 1):
                counted = f"{name}{number}_" if member.length else own
                yield from leaves(interface, inner, counted, at + number * inner.size)
        else:
            yield Leaf(name, member.kind, member.length, member.unit, at)


def listed(front: str, items: list[str], end: str) -> str:
    """Return a list of items in black's form: on one line if it is short enough, else each on its own."""
    line = f"{front}{', '.join(items)}{end}"
    if len(line) <= WIDTH:
        return line
    indent = " " * (len(front) - len(front.lstrip()))
    return "\n".join([front, *(f"{indent}    {item}," for item in items), indent + end])


def enum_lines(enum: Enum) -> list[str]:
    words = textwrap.wrap(enum.words, WIDTH, initial_indent="# ", subsequent_indent="# ", break_on_hyphens=False)
    return [*words, *(f"{value.name} = {value.number}" for value in enum.values)]


def class_text(struct: Struct) -> str:
    words = textwrap.wrap(
        f'"""{struct.words}"""', WIDTH, initial_indent="    ", subsequent_indent="    ", break_on_hyphens=False
    )
    fields = [f'("{member.name}", {field_type(member)})' for member in struct.members]
    return "\n".join([f"class {class_name(struct.name)}(Structure):", *words, "", listed("    _fields_ = [", fields, "]")])


def field_type(member: Member) -> str:
    own = PLAIN[member.kind].in_ctypes if member.kind in PLAIN else class_name(member.kind)
    return f"{own} * {member.length}" if member.length else own


def flat_texts(interface: Interface, struct: Struct) -> list[str]:
    """Return the format of a struct, and its fields for numpy.

    Raises
    ------
    Wrong
        numpy, which aligns one field after the other, would have them at other offsets.
    """
    form, fields, end = "=", [], 0
    for leaf in leaves(interface, struct):
        if leaf.offset != -(-end // leaf.alignment) * leaf.alignment:
            raise Wrong(f"struct {struct.name} isn't flat: {leaf.name} is at {leaf.offset}")
        form += "x" * (leaf.offset - end) + leaf.in_struct
        fields.append(f'("{leaf.name}", {leaf.in_numpy})')
        end = leaf.offset + leaf.size
    form += f"{struct.size - end}x" * (struct.size > end)
    name = struct.name.upper()
    return [f'{name} = Struct("{form}")', listed(f"{name}_FIELDS = [", fields, "]")]


def argument_types(interface: Interface, call: Call) -> list[str]:
    """Return the types of a call's arguments, as ctypes has them.

    Structs that come in great numbers, and texts, are memory of any kind: an address, bytes, or an array of ctypes.
    """
    several = {struct.name for struct in interface.copied()}
    types = [] if call.is_deskless else ["POINTER(Handle)"]
    for member in call.takes:
        if member.form in ("text", "list", "both", "room"):
            types += ["c_void_p", "c_size_t"]
        elif member.form:
            types.append("c_void_p" if member.kind in several else f"POINTER({field_type(member)})")
        else:
            types.append(field_type(member))
    return types


def call_text(interface: Interface, call: Call) -> str:
    types = ", ".join(argument_types(interface, call))
    return f'    "{interface.prefix}_{call.name}": ({RETURNS[call.returns]}, [{types}]),'


def module(interface: Interface, _: str) -> str:
    """Return the module."""
    classes = [class_text(struct) for struct in interface.structs.values()]
    flat = [line for struct in interface.copied() for line in flat_texts(interface, struct)]
    calls = [call_text(interface, call) for call in interface.calls.values()]
    numbers = ["\n".join(enum_lines(enum)) for enum in interface.enums.values()]
    text = "\n\n\n".join(["\n\n".join(numbers), *classes, "\n".join(flat)])
    text += "\n\n# What each call returns, and what it takes.\nCALLS = {\n" + "\n".join(calls) + "\n}\n"
    types = sorted({plain.in_ctypes for plain in PLAIN.values() if plain.in_ctypes in text} | {"c_size_t"})
    return HEAD.format(types=", ".join(types)) + "\n" + text
