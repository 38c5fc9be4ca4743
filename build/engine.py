"""The engine's side of the interface: its structs with the layout of C, its numbers and its exported calls, as the sources in
crates/ have them, compared with the schema. A line in such a place that has no form known here is a difference."""

import re
from collections.abc import Iterator
from itertools import zip_longest
from pathlib import Path

from interface import PLAIN, Call, Enum, Interface, Member, Source, Struct, Wrong

# Where exported calls may be.
EXPORTS = "ft_c/"
STRUCT = re.compile(r"(?:#\[[^]]*\]\n)*pub struct (\w+) \{\n(.*?)\n\}\n", re.DOTALL)
MEMBER = re.compile(r"    (?:pub )?(\w+): ([^,]+),")
# Not a member: a comment, and what only proofs know.
NO_MEMBER = re.compile(r"    (?:///.*|pub ghost .*)")
EXPORT = re.compile(r'pub extern "C" fn (\w+)\(([^()]*)\)(?: -> (\w+))?\n')
RETURNS = {"code": "u32", "size": "usize", "bool": "bool", "nothing": "()"}
FORMS = {
    "": "{}",
    "text": "&[{}]",
    "in": "&{}",
    "out": "&mut {}",
    "desk": "&mut {}",
    "list": "&[{}]",
    "both": "&mut [{}]",
    "room": "&mut [{}]",
}
# Names and types of a struct's members; or of a call's arguments, and what it returns.
Members = list[tuple[str, str]]


def structs_in(file: str, text: str) -> Iterator[tuple[str, Members]]:
    """Go through the structs of a source that have the layout of C: the file and the name, and the members with their types.

    Raises
    ------
    Wrong
        One has another form than is known here.
    """
    for mark in re.finditer(r"^ *#!?\[repr\((.*)\n", text, re.MULTILINE):
        match = STRUCT.match(text, mark.end())
        if mark[1] != "C)]" or not match:
            raise Wrong(f"crates/{file}: no struct of a known form is after {mark[0].strip()}")
        members = []
        for line in match[2].split("\n"):
            member = MEMBER.fullmatch(line)
            if member:
                members.append((member[1], member[2]))
            elif not NO_MEMBER.fullmatch(line):
                raise Wrong(f"crates/{file}: {match[1]} has a line of an unknown form: {line.strip()}")
        yield f"{file} {match[1]}", members


def exports_in(file: str, text: str) -> Iterator[tuple[str, Members]]:
    """Go through the exported calls of a source, without the allocator that each takes first.

    Raises
    ------
    Wrong
        One has another form than is known here.
    """
    matches = list(EXPORT.finditer(text))
    if len(matches) != len(re.findall(r"\bextern\b", text)):
        raise Wrong(f"crates/{file}: an exported call has an unknown form")
    for match in matches:
        parts = (part.strip().partition(": ") for part in match[2].split(",") if part.strip())
        takes = [(name, kind) for name, _, kind in parts]
        if takes[:1] != [("alloc", "Global")]:
            raise Wrong(f"crates/{file}: {match[1]} doesn't take the allocator first")
        yield match[1], [*takes[1:], ("returns", match[3] or "()")]


def numbers_in(source: Source, text: str) -> dict[str, int]:
    """Return the numbers in a source of an enumeration, by the engine's names."""
    found: list[tuple[str, str]] = []
    if source.order:
        listed = re.search(rf"^const {source.order}: \[(\w+); (\d+)\] = \[\n(.*?)^\];", text, re.MULTILINE | re.DOTALL)
        items = re.findall(rf"^    {listed[1]}::(\w+),$", listed[3], re.MULTILINE) if listed else []
        if not listed or len(items) != int(listed[2]):
            raise Wrong(f"crates/{source.file}: the list {source.order} has an unknown form")
        found += [(name, str(number)) for number, name in enumerate(items, source.first)]
    elif source.member:
        arms = re.findall(rf"^ *{source.arms}::(\w+)\(\w+\) => \w+ \{{(.*?)^ *\}},$", text, re.MULTILINE | re.DOTALL)
        for name, body in arms:
            number = re.search(rf"^ *{source.member}: (\d+),$", body, re.MULTILINE)
            found.append((name, number[1] if number else "0"))
    elif source.arms:
        found += re.findall(rf"^ *{source.arms}::(\w+)(?:\((?:_|, )+\))? => (\d+),$", text, re.MULTILINE)
    for name in source.constants:
        found += re.findall(rf"^ *(?:pub(?:\(crate\))? )?const ({name}): u32 = (\d+);$", text, re.MULTILINE)
    numbers = {name: int(number) for name, number in found}
    if len(numbers) != len(found) or not numbers or not set(source.constants) <= set(numbers):
        raise Wrong(f"crates/{source.file}: no numbers, or a name with two, where the schema looks for some")
    return numbers


def snake(name: str) -> str:
    """Return a variant's name as the name of a number: `NoTask` is `NO_TASK`."""
    return re.sub(r"(?<=[a-z0-9])(?=[A-Z])", "_", name).upper()


def enum_differences(enum: Enum, texts: dict[str, str]) -> Iterator[str]:
    """Go through what differs in an enumeration: each number that a source has must be that of the schema, and each that the
    schema has must be in a source."""
    values = {value.name if enum.words else snake(value.name): value.number for value in enum.values}
    missing = set(values)
    for source in enum.engine:
        for own, number in numbers_in(source, texts.get(source.file, "")).items():
            name = source.names.get(own, snake(own))
            if name and values.get(name) != number:
                told = f"{name} of {enum.name} is {values.get(name, 'missing')}"
                yield f"crates/{source.file}: {own} is {number}, but in the schema {told}"
            missing.discard(name)
    yield from (f"crates: nothing has the number of {name} of {enum.name}" for name in sorted(missing))


def engine_type(interface: Interface, member: Member) -> str:
    """Return the type of a member, or of an argument, in the engine."""
    kind = PLAIN[member.kind].in_engine if member.kind in PLAIN else interface.structs[member.kind].engine[1]
    own = f"[{kind}; {member.length}]" if member.length else kind
    return FORMS[member.form].format(own)


def struct_of(interface: Interface, struct: Struct) -> Members:
    """Return a struct's members as the engine must have them."""
    return [(member.name, engine_type(interface, member)) for member in struct.members]


def export_of(interface: Interface, call: Call) -> Members:
    """Return a call as the engine must have it."""
    takes = [(call.engine_names.get(member.name, member.name), engine_type(interface, member)) for member in call.takes]
    desk = [] if call.is_deskless else [("desk", f"&mut {interface.structs['handle'].engine[1]}")]
    return [*desk, *takes, ("returns", RETURNS[call.returns])]


def unlike(what: str, own: dict[str, Members], expected: dict[str, Members]) -> Iterator[str]:
    """Go through what two tables don't have in common: of what is in both, the first pair that differs."""
    for name in sorted({*own, *expected}):
        if name not in own or name not in expected:
            yield f"crates: {what} {name} is only in {'the engine' if name in own else 'the schema'}"
            continue
        for pairs in zip_longest(own[name], expected[name]):
            if pairs[0] != pairs[1]:
                here, there = (": ".join(pair) if pair else "nothing" for pair in pairs)
                yield f"crates: {what} {name} has {here}, and in the schema {there}"
                break


def differences(interface: Interface, crates: Path) -> list[str]:
    """Return what differs between the schema and the engine."""
    texts = {path.relative_to(crates).as_posix(): path.read_text("utf-8") for path in sorted(crates.glob("*/src/**/*.rt"))}
    own = {file: text for file, text in texts.items() if file.startswith(EXPORTS)}
    structs = {" ".join(struct.engine): struct_of(interface, struct) for struct in interface.structs.values()}
    calls = {f"{interface.prefix}_{call.name}": export_of(interface, call) for call in interface.calls.values()}
    try:
        found = list(unlike("struct", dict(one for file in texts for one in structs_in(file, texts[file])), structs))
        found += unlike("call", dict(one for file in own for one in exports_in(file, own[file])), calls)
        for enum in (*interface.enums.values(), *interface.faults.values()):
            found += enum_differences(enum, texts)
    except Wrong as wrong:
        return [str(wrong)]
    return found
