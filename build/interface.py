"""What callers see of the library, as schema/ has it: enumerations, structs with their sizes and offsets, calls and faults."""

import re
import tomllib
from collections.abc import Iterable, Iterator
from pathlib import Path
from typing import Any, NamedTuple

FILES = ("histdesk.toml", "faults.toml", "calls.toml")
FORM = re.compile(r"(?:(text|desk)|(?:(in|out|list|both|room) )?(\w+)(?:\[(\d+)\])?(?::(\w+))?)")
# Names in words: of numbers, structs and calls.
NAMED = re.compile(r"\b(histdesk|HISTDESK)_(\w+)")


class Wrong(ValueError):
    """The schema, or what is compared with it, isn't as it must be."""


class Plain(NamedTuple):
    """What a plain type is called in C, in Python's ctypes and struct, in numpy and in the engine, and its size in bytes."""

    in_c: str
    in_ctypes: str
    in_struct: str
    in_numpy: str
    in_engine: str
    size: int


PLAIN = {
    "bool": Plain("bool", "c_bool", "?", "?", "bool", 1),
    "u8": Plain("uint8_t", "c_uint8", "B", "u1", "u8", 1),
    "u32": Plain("uint32_t", "c_uint32", "I", "u4", "u32", 4),
    "u64": Plain("uint64_t", "c_uint64", "Q", "u8", "u64", 8),
    "i32": Plain("int32_t", "c_int32", "i", "i4", "i32", 4),
    "i64": Plain("int64_t", "c_int64", "q", "i8", "i64", 8),
    "pointer": Plain("void *", "c_void_p", "P", "P", "*mut u8", 8),
}


# Of these types is what has a unit, or is a number of an enumeration.
MEASURED = ("u32", "u64", "i32", "i64")


class Source(NamedTuple):
    """Where the engine has the numbers of an enumeration, as schema/histdesk.toml describes it."""

    file: str
    arms: str
    member: str
    order: str
    first: int
    constants: list[str]
    names: dict[str, str]


class Value(NamedTuple):
    """A number with its name, in words; `fourth` is what stands in the fourth column of a table in a document."""

    number: int
    name: str
    words: str
    fourth: str


class Enum(NamedTuple):
    """An enumeration, or the faults under a heading of a document; `fourth` is the title of their fourth column."""

    name: str
    words: str
    heading: str
    fourth: str
    values: list[Value]
    engine: list[Source]


class Member(NamedTuple):
    """A member of a struct, or an argument of a call: `length` is 0 if it is no array, `offset` is in bytes."""

    name: str
    form: str
    kind: str
    length: int
    enum: str
    unit: str
    words: str
    offset: int = 0


class Struct(NamedTuple):
    """A struct; `engine` is the file and the name that the engine has for it, `size` and `alignment` are in bytes."""

    name: str
    c_name: str
    words: str
    engine: list[str]
    members: list[Member]
    size: int
    alignment: int


class Call(NamedTuple):
    """A call, without the handle that it takes first; codes are pairs of a name and of words."""

    name: str
    section: str
    words: str
    is_deskless: bool
    returns: str
    takes: list[Member]
    codes: list[tuple[str, str]]
    spares_memory: bool
    then: str
    engine_names: dict[str, str]


class Taken:
    """A table of the schema, each key of which has to be taken.

    Parameters
    ----------
    where
        What it is, for messages.
    table
        Its keys and values.
    """

    def __init__(self, where: str, table: dict[str, Any]) -> None:
        self._where, self._table = where, dict(table)

    def take(self, key: str, default: Any = None) -> Any:
        """Return what a key has, or the default if it isn't there. Words become one line.

        Raises
        ------
        Wrong
            It isn't there, and has no default.
        """
        if key not in self._table and default is None:
            raise Wrong(f"{self._where} has no {key}")
        value = self._table.pop(key, default)
        return " ".join(value.split()) if isinstance(value, str) else value

    def end(self) -> None:
        """Say that all was taken.

        Raises
        ------
        Wrong
            Something is left.
        """
        if self._table:
            raise Wrong(f"{self._where}: unknown {', '.join(self._table)}")


class Interface:
    """All of it.

    Parameters
    ----------
    folder
        The folder of the schema.

    Raises
    ------
    Wrong
        Something in it isn't as it must be.
    """

    def __init__(self, folder: Path) -> None:
        schema = Taken("the schema", tables_in(folder))
        self.prefix: str = schema.take("prefix")
        self.soname: int = schema.take("soname")
        self.units: dict[str, str] = schema.take("units")
        self.sections: dict[str, str] = schema.take("sections")
        self.enums = {name: enum_of(name, table) for name, table in schema.take("enum").items()}
        self.faults = {name: enum_of(name, table) for name, table in schema.take("fault").items()}
        self.structs: dict[str, Struct] = {}
        for name, table in schema.take("struct").items():
            self.structs[name] = self._struct(name, Taken(f"struct {name}", table))
        self.calls: dict[str, Call] = {}
        for section, calls in schema.take("calls").items():
            for name, table in calls.items():
                self._add(self._call(name, section, Taken(f"call {name}", table)))
        self.synopsis: list[str] = schema.take("synopsis")
        schema.end()
        self._check_names()

    def _measure(self, kind: str) -> tuple[int, int]:
        """Return the size and the alignment of a type, in bytes."""
        if kind in PLAIN:
            return PLAIN[kind].size, PLAIN[kind].size
        return self.structs[kind].size, self.structs[kind].alignment

    def _member(self, where: str, row: list[str]) -> Member:
        """Return a member or an argument, from its row in the schema."""
        if not 2 <= len(row) <= 4:
            raise Wrong(f"{where} has a row of {len(row)} columns")
        name, form, unit, words = (*row, "", "")[:4]
        match = FORM.fullmatch(form)
        if not match or (unit and unit not in self.units):
            raise Wrong(f"{where}: {name} has an unknown {'unit ' + unit if match else 'form ' + form}")
        kind, enum = {"text": "u8", "desk": "handle"}.get(match[1], match[3]), match[5] or ""
        if kind not in PLAIN and kind not in self.structs or enum and enum not in self.enums:
            raise Wrong(f"{where}: {name} has an unknown type {form}")
        if kind in MEASURED and match[2] != "room" and not unit and not enum:
            raise Wrong(f"{where}: {name} has no unit")
        return Member(name, match[1] or match[2] or "", kind, int(match[4] or 0), enum, unit, " ".join(words.split()))

    def _struct(self, name: str, table: Taken) -> Struct:
        members: list[Member] = []
        end, most = 0, 1
        for row in table.take("members"):
            member = self._member(f"struct {name}", row)
            if member.form:
                raise Wrong(f"struct {name}: {member.name} has the form of an argument")
            size, alignment = self._measure(member.kind)
            at = -(-end // alignment) * alignment
            members.append(member._replace(offset=at))
            end, most = at + size * (member.length or 1), max(most, alignment)
        check_unlike(f"struct {name}", (member.name for member in members))
        c_name, words, engine = table.take("c_name", f"{self.prefix}_{name}"), table.take("words"), table.take("engine").split()
        table.end()
        return Struct(name, c_name, words, engine, members, -(-end // most) * most, most)

    def _call(self, name: str, section: str, table: Taken) -> Call:
        words, copied = table.take("words"), table.take("copies", "")
        takes = table.take("takes", []) or copied and [["from", "u64", "item"], ["to", f"room {copied}"]]
        members = [self._member(f"call {name}", row) for row in takes]
        codes = [(code, note.strip()) for code, _, note in (code.partition(":") for code in table.take("codes", []))]
        known = {value.name for value in self.enums["code"].values}
        returns = table.take("returns", "size" if copied else "code")
        if section not in self.sections or not known.issuperset(code for code, _ in codes):
            raise Wrong(f"call {name}: unknown section {section}, or one of the codes {codes}")
        if any(member.length for member in members):
            raise Wrong(f"call {name} takes an array")
        if returns not in ("code", "size", "bool", "nothing") or codes and returns != "code":
            raise Wrong(f"call {name} returns {returns}, with the codes {codes}")
        check_unlike(f"call {name}", (member.name for member in members))
        deskless, spares = table.take("deskless", False), table.take("spares_memory", False)
        then, engine_names = table.take("then", ""), table.take("engine_names", {})
        table.end()
        return Call(name, section, words, deskless, returns, members, codes, spares, then, engine_names)

    def _add(self, call: Call) -> None:
        if call.name in self.calls:
            raise Wrong(f"two calls {call.name}")
        self.calls[call.name] = call

    def words(self) -> Iterator[str]:
        """Go through all words."""
        for enum in self.enums.values():
            yield from (enum.words, *(value.words for value in enum.values))
        for struct in self.structs.values():
            yield from (struct.words, *(member.words for member in struct.members))
        for call in self.calls.values():
            yield from (call.words, call.then, *(note for _, note in call.codes), *(member.words for member in call.takes))

    def names_in(self, text: str) -> set[str]:
        """Return the names in a text that look like those of the library, but are none of it."""
        numbers = {value.name for enum in self.enums.values() for value in enum.values}
        structs = {struct.c_name.removeprefix(f"{self.prefix}_") for struct in self.structs.values()}
        known = {"HISTDESK": numbers, "histdesk": structs.union(self.calls)}
        return {f"{front}_{name}" for front, name in NAMED.findall(text) if name not in known[front]}

    def _check_names(self) -> None:
        """Check that names of numbers differ, and that words name what there is."""
        numbers = (value.name for enum in self.enums.values() for value in enum.values)
        check_unlike("the schema", (*numbers, *(struct.name.upper() for struct in self.structs.values())))
        unknown = set().union(*map(self.names_in, self.words())) | (set(self.synopsis) - set(self.calls))
        if unknown:
            raise Wrong(f"unknown names in the schema: {', '.join(sorted(unknown))}")

    def copied(self) -> list[Struct]:
        """Return the structs that come in great numbers: those of which a call takes or writes several."""
        several = {
            member.kind for call in self.calls.values() for member in call.takes if member.form in ("list", "both", "room")
        }
        return [struct for struct in self.structs.values() if struct.name in several]


def tables_in(folder: Path) -> dict[str, Any]:
    """Return the tables of all files of the schema.

    Raises
    ------
    Wrong
        One isn't TOML, or two have the same table.
    """
    tables: dict[str, Any] = {}
    for file in FILES:
        try:
            own = tomllib.loads((folder / file).read_text("utf-8"))
        except tomllib.TOMLDecodeError as error:
            raise Wrong(f"{folder.name}/{file}: {error}") from None
        check_unlike("the schema", (*tables, *own))
        tables.update(own)
    return tables


def enum_of(name: str, table: dict[str, Any]) -> Enum:
    """Return an enumeration or a list of faults.

    Raises
    ------
    Wrong
        Two numbers or names are alike, or a key is unknown.
    """
    where = f"enumeration {name}"
    taken = Taken(where, table)
    rows = taken.take("values")
    if not all(3 <= len(row) <= 4 for row in rows):
        raise Wrong(f"{where} has a row that hasn't 3 or 4 columns")
    values = [Value(*(*row, "")[:4]) for row in rows]
    check_unlike(where, (value.number for value in values))
    check_unlike(where, (value.name for value in values))
    engine = [source_of(where, source) for source in taken.take("engine")]
    enum = Enum(name, taken.take("words", ""), taken.take("heading", ""), taken.take("fourth", ""), values, engine)
    taken.end()
    return enum


def source_of(where: str, table: dict[str, Any]) -> Source:
    """Return where the engine has numbers."""
    taken = Taken(where, table)
    file, arms, member, order = taken.take("file"), taken.take("arms", ""), taken.take("member", ""), taken.take("order", "")
    source = Source(file, arms, member, order, taken.take("first", 0), taken.take("constants", []), taken.take("names", {}))
    taken.end()
    return source


def check_unlike(where: str, things: Iterable[object]) -> None:
    """Check that no two of these are the same.

    Raises
    ------
    Wrong
        Two of them are.
    """
    seen: set[object] = set()
    for thing in things:
        if thing in seen:
            raise Wrong(f"{where} has {thing} twice")
        seen.add(thing)
