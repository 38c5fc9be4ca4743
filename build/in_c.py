"""The interface in C: what is below the headings of include/histdesk.h, the names that the linker exports, and the synopsis of
man/histdesk.3."""

import re
import textwrap

from interface import PLAIN, Call, Enum, Interface, Member, Struct, Wrong

WIDTH = 128
RETURNS = {"code": "uint32_t", "size": "size_t", "bool": "bool", "nothing": "void"}
# Units that a member's comment ends with.
SHOWN = ("us", "bytes")
ASSERTS = """#if defined(__cplusplus) ? __cplusplus >= 201103L : defined(__STDC_VERSION__) && __STDC_VERSION__ >= 201112L
#ifdef __cplusplus
#define {up}_ASSERT_(holds) static_assert(holds, #holds)
#else
#define {up}_ASSERT_(holds) _Static_assert(holds, #holds)
#endif
#define {up}_AT_(type, field, offset) {up}_ASSERT_(offsetof(type, field) == (offset))

{up}_ASSERT_(sizeof(bool) == 1);
{asserts}

#undef {up}_AT_
#undef {up}_ASSERT_
#endif
"""


def replace_part(text: str, begin: str, end: str, new: str) -> str:
    """Return a text in which what is between two patterns is replaced. The first ends a line, and the second begins one.

    Raises
    ------
    Wrong
        There isn't one such part.
    """
    matches = list(re.finditer(f"(?ms){begin}(.*?)(?={end})", text))
    if len(matches) != 1:
        raise Wrong(f"{len(matches)} parts begin with {begin} and end before {end}")
    return text[: matches[0].start(1)] + new + text[matches[0].end(1) :]


def comment(text: str, indent: int = 0) -> list[str]:
    """Return the lines of a comment, the first of which begins in this column."""
    # Neither the end nor two dots begin a line.
    bound = f"/* {text} */".replace(" */", "\xa0*/").replace(" ..", "\xa0..")
    lines = textwrap.wrap(
        bound,
        WIDTH,
        initial_indent=" " * indent,
        subsequent_indent=" " * indent + " * ",
        break_long_words=False,
        break_on_hyphens=False,
    )
    return [line.replace("\xa0", " ") for line in lines]


def noted(rows: list[tuple[str, str]]) -> list[str]:
    """Return declarations with their comments, which begin in one column."""
    column = max((len(front) for front, words in rows if words), default=0) + 1
    lines: list[str] = []
    for front, words in rows:
        notes = comment(words, column) if words else [""]
        lines += [(front + notes[0][len(front) :]).rstrip(), *notes[1:]]
    return lines


def enum_text(interface: Interface, enum: Enum) -> str:
    up = interface.prefix.upper()
    rows = [(f"    {up}_{value.name} = {value.number},", value.words) for value in enum.values]
    rows[-1] = (rows[-1][0][:-1], rows[-1][1])
    return "\n".join([*comment(enum.words), "enum {", *noted(rows), "};\n"])


def struct_text(interface: Interface, struct: Struct) -> str:
    rows = []
    for member in struct.members:
        first = f"{interface.prefix.upper()}_{interface.enums[member.enum].values[0].name} .." if member.enum else ""
        unit = f"in {interface.units[member.unit]}" if member.unit in SHOWN else ""
        rows.append((f"    {declared(interface, member)};", "; ".join(filter(None, [first, member.words, unit]))))
    front, end = f"typedef struct {struct.c_name} {{", f"}} {struct.c_name};\n"
    return "\n".join([*comment(struct.words), front, *noted(rows), end])


def type_name(interface: Interface, kind: str) -> str:
    return PLAIN[kind].in_c if kind in PLAIN else interface.structs[kind].c_name


def declared(interface: Interface, member: Member, form: str = "{type} {name}") -> str:
    """Return the declaration of a member or an argument."""
    kind = type_name(interface, member.kind)
    size = f"[{member.length}]" if member.length else ""
    return (form.format(type=kind, name=member.name) + size).replace("* ", "*")


def arguments(interface: Interface, call: Call) -> list[str]:
    """Return the declarations of a call's arguments."""
    forms = {
        "": "{type} {name}",
        "desk": "{type} *{name}",
        "in": "const {type} *{name}",
        "out": "{type} *{name}",
        "text": "const {type} *{name}, size_t length",
        "list": "const {type} *{name}, size_t count",
        "both": "{type} *{name}, size_t count",
        "room": "{type} *{name}, size_t room",
    }
    own = [declared(interface, member, forms[member.form]) for member in call.takes]
    listed = [part for argument in own for part in argument.split(", ")]
    return listed if call.is_deskless else [f"{interface.structs['handle'].c_name} *desk", *listed]


def codes_text(interface: Interface, call: Call) -> str:
    """Return the sentence about the codes of a call."""
    up = interface.prefix.upper()
    if call.returns != "code":
        return ""
    if not call.codes:
        return f"Never {up}_MEMORY." if call.spares_memory else f"No refusal except {up}_MEMORY."
    codes = ", ".join(f"{up}_{name}" + (f" ({note})" if note else "") for name, note in call.codes)
    return codes + (f"; never {up}_MEMORY." if call.spares_memory else ".")


def call_text(interface: Interface, call: Call) -> str:
    outputs = [f"`{member.name}` is {member.words}." for member in call.takes if member.words]
    words = comment(" ".join(filter(None, [call.words, *outputs, codes_text(interface, call), call.then])))
    own = f"{RETURNS[call.returns]} {interface.prefix}_{call.name}({', '.join(arguments(interface, call))});"
    if len(own) > WIDTH:
        raise Wrong(f"the declaration of {call.name} is longer than a line")
    return "\n".join([*words, own, ""])


def asserts_text(interface: Interface) -> str:
    up, lines = interface.prefix.upper(), []
    for struct in interface.structs.values():
        lines.append(f"{up}_ASSERT_(sizeof({struct.c_name}) == {struct.size});")
        lines += [f"{up}_AT_({struct.c_name}, {member.name}, {member.offset});" for member in struct.members if member.offset]
    return ASSERTS.format(up=up, asserts="\n".join(lines))


def header(interface: Interface, text: str) -> str:
    """Return the header, of which only what is below the headings is made."""
    parts = {
        "Numbers": [enum_text(interface, enum) for enum in interface.enums.values()],
        "Structs": [struct_text(interface, struct) for struct in interface.structs.values()],
    }
    for section, heading in interface.sections.items():
        parts[heading] = [call_text(interface, call) for call in interface.calls.values() if call.section == section]
    parts["Sizes and offsets"] = [asserts_text(interface)]
    for heading, made in parts.items():
        begin = rf"^/\* ---- {heading}\b(?:(?!\*/).)*\*/\n"
        text = replace_part(text, begin, r"^/\* ---- |^#ifdef __cplusplus\n\}", "".join(f"\n{one}" for one in made) + "\n")
    return text


def version_map(interface: Interface, _: str) -> str:
    """Return the linker's list of the names that the library exports."""
    node = f"{interface.prefix.upper()}_{interface.soname}"
    names = "".join(f"    {interface.prefix}_{name};\n" for name in interface.calls)
    head = "# The names that the library exports. build/schema makes this list of schema/calls.toml.\n"
    return f"{head}{node} {{\nglobal:\n{names}local:\n    *;\n}};\n"


def manual(interface: Interface, text: str) -> str:
    """Return the page of the manual, of which only the calls of the synopsis are made."""
    lines = []
    for name in interface.synopsis:
        call = interface.calls[name]
        words = " ".join(f'"{argument}"' for argument in arguments(interface, call))
        lines.append(f".Ft {RETURNS[call.returns]}\n.Fn {interface.prefix}_{name} {words}\n")
    return replace_part(text, rf"^\.Sh SYNOPSIS\n\.In {interface.prefix}\.h\n", r"^\.Sh ", "".join(lines))
