"""The functions in a source file of a crate: where each begins and ends, and what it is called."""

import re
from typing import NamedTuple

# Comments, texts and characters are words of their own, so that a brace in one of them is none of the code.
WORD = re.compile(
    r"""
    //[^\n]* | /\*.*?\*/
    | [bc]?r(?P<marks>\#*)".*?"(?P=marks) | [bc]?"(?:[^"\\]|\\.)*"
    | b?'(?:\\.[^']*|[^'\\\n])' | '[A-Za-z_]\w*
    | \w+ | \S""",
    re.DOTALL | re.VERBOSE,
)
COMMENTS = ("//", "/*")
CLOSES = {"{": "}", "(": ")", "[": "]", "<": ">"}


class Word(NamedTuple):
    """A word of a source, and where it is."""

    at: int
    text: str


class Function(NamedTuple):
    """A function with a body."""

    # Where it begins, with its comment and attributes, where its word `fn` is, and where it ends.
    begin: int
    fn: int
    end: int
    # The names of what it is in, within its file, and its own: a type and a method, for example.
    names: list[str]
    # The type that has it as a method, or nothing.
    of_type: str
    # A trait, or an implementation of one, has it.
    is_of_trait: bool
    # The cycle of functions that it says it is in, or nothing.
    cycle: str

    @property
    def name(self) -> str:
        """Its own name."""
        return self.names[-1]


class Block(NamedTuple):
    """The braces of an implementation, a trait or a module, as a part of the words of a source."""

    name: str
    # The type that it implements something for, or nothing.
    of_type: str
    is_of_trait: bool
    begin: int
    end: int


def words_of(text: str) -> list[Word]:
    """Return the words of a source, without its comments."""
    return [Word(it.start(), it[0]) for it in WORD.finditer(text) if not it[0].startswith(COMMENTS)]


def closing(words: list[Word], at: int) -> int:
    """Return which word closes the bracket at this one."""
    opens = words[at].text
    closes, depth = CLOSES[opens], 0
    while True:
        word, before = words[at].text, words[at - 1].text
        # The end of an arrow is no bracket.
        is_arrow = word == ">" and before in "-="
        depth += (word == opens) - (word == closes and not is_arrow)
        if depth == 0:
            return at
        at += 1


def type_name(words: list[str]) -> str:
    """Return the name of a type or a trait that is spelled by these words, without its path and its arguments."""
    depth, name = 0, ""
    for word in words:
        depth += (word in "<([") - (word in ">)]")
        if depth == 0 and re.match(r"[A-Za-z_]", word) and word not in ("mut", "dyn"):
            name = word
    return name


def block_at(words: list[Word], at: int) -> Block | None:
    """Return the block that begins with the word `impl`, `trait` or `mod` at an index, or None if it has no braces."""
    kind, begin = words[at].text, at + 1
    if kind == "impl" and words[begin].text == "<":
        begin = closing(words, begin) + 1
    braces = begin
    while words[braces].text not in ("{", ";"):
        braces += 1
    if words[braces].text == ";":
        return None
    head = [word.text for word in words[begin:braces]]
    head = head[: head.index("where")] if "where" in head else head
    end = closing(words, braces)
    if kind != "impl":
        return Block(head[0], "", kind == "trait", braces, end)
    cut = head.index("for") if "for" in head else -1
    of_type = type_name(head[cut + 1 :])
    return Block(of_type + type_name(head[: max(cut, 0)]), of_type, cut >= 0, braces, end)


def body_of(words: list[Word], at: int) -> int | None:
    """Return which word is the brace that opens a function's body, or None if it has none: what is in the braces of a clause
    comes before it. `at` is the word `fn`."""
    in_clause = False
    while True:
        word = words[at].text
        if word in ("requires", "ensures", "ghost"):
            in_clause = True
        elif word in ("(", "["):
            at = closing(words, at)
        elif word == ";":
            return None
        elif word == "{" and not in_clause:
            return at
        elif word == "{":
            at, in_clause = closing(words, at), False
        at += 1


def item_begin(text: str, at: int) -> int:
    """Return where the item begins that has its word `fn` at a place: with the first line of its comment and attributes."""
    begin = text.rfind("\n", 0, at) + 1
    while begin:
        above = text.rfind("\n", 0, begin - 1) + 1
        if not text[above:begin].lstrip().startswith(("#[", "///")):
            break
        begin = above
    return begin


def functions_of(text: str) -> list[Function]:
    """Return the functions of a source, in order, except those that are in another function."""
    words = words_of(text)
    found: list[Function] = []
    blocks: list[Block] = []
    at = 0
    while at < len(words):
        blocks = [block for block in blocks if at < block.end]
        word, after = words[at].text, words[at + 1].text if at + 1 < len(words) else ""
        if word in ("impl", "trait", "mod") and re.match(r"[\w<]", after):
            block = block_at(words, at)
            if block:
                blocks.append(block)
            at = block.begin if block else at + 1
        elif word == "fn" and re.match(r"[A-Za-z_]", after):
            body = body_of(words, at)
            if body:
                begin, end = item_begin(text, words[at].at), closing(words, body)
                cycle = re.search(r"#\[cycle\((\w+)\)\]", text[begin : words[at].at])
                names = [*(block.name for block in blocks), after]
                of_type = "".join(block.of_type for block in blocks)
                is_of_trait = any(block.is_of_trait for block in blocks)
                end_at = words[end].at + 1
                found.append(Function(begin, words[at].at, end_at, names, of_type, is_of_trait, cycle[1] if cycle else ""))
                at = end
        at += 1
    return found


def types_of(text: str) -> list[str]:
    """Return the names of the types that a source declares."""
    words = [word.text for word in words_of(text)]
    return [name for kind, name in zip(words, words[1:]) if kind in ("struct", "enum") and re.match(r"[A-Z]", name)]


def module_of(file: str) -> list[str]:
    """Return the names of the module that a file below src is, as `["hist", "keys"]` of `src/hist/keys.rt`."""
    names = file.removesuffix(".rt").split("/")[1:]
    return [] if names in (["lib"], ["main"]) else names
