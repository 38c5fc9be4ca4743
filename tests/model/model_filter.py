"""Filters, for model.py: docs/REFERENCE.md, Filters. A filter is a tree of tuples, which the word in front tells apart."""

import functools
import re

from model_line import TEXTS

NAME = re.compile("[A-Za-z_][A-Za-z0-9_]*")
RUN = re.compile("-?[A-Za-z0-9_]*")
NUMBER = re.compile("-?(0|[1-9][0-9]*)|0x[0-9A-Fa-f]+")
BYTES = frozenset(map(chr, range(256)))
OPERATORS = ["==", "!=", "<=", ">=", "<", ">", "&", "~"]
MEANINGS = {
    "==": lambda a, b: a == b,
    "!=": lambda a, b: a != b,
    "<=": lambda a, b: a <= b,
    ">=": lambda a, b: a >= b,
    "<": lambda a, b: a < b,
    ">": lambda a, b: a > b,
    "&": lambda a, b: (a & b) != 0,
    "~": lambda text, pattern: matches(read_pattern(pattern), text),
}


class FilterFault(Exception):
    """A filter has a fault: its number, and its place or None."""

    def text(self):
        number, place = self.args
        return f"filter {number}" + ("" if place is None else f" at {place}")


class Reading:
    """A text that is read from left to right."""

    def __init__(self, text, fields):
        self.text, self.fields, self.at, self.open = text, fields, 0, 0

    def skip(self):
        while self.text[self.at : self.at + 1] in (" ", "\t"):
            self.at += 1
        return self.at

    def takes(self, token):
        self.skip()
        if not self.text.startswith(token, self.at):
            return False
        self.at += len(token)
        return True

    def whole(self):
        tree = self.joined("any", "||", lambda: self.joined("all", "&&", self.operand))
        return tree

    def joined(self, word, token, read):
        parts = [read()]
        while self.takes(token):
            parts.append(read())
        return parts[0] if len(parts) == 1 else (word, parts)

    def operand(self):
        for token in "!(":
            if self.takes(token):
                return self.nested(token)
        return self.predicate()

    def nested(self, token):
        if self.open == 32:
            raise FilterFault(7, None)
        self.open += 1
        if token == "!":
            tree = ("not", self.operand())
        else:
            tree = self.whole()
            if not self.takes(")"):
                raise FilterFault(2, self.at)
        self.open -= 1
        return tree

    def predicate(self):
        start = self.skip()
        name = NAME.match(self.text, start)
        if not name:
            raise FilterFault(2, start)
        field, self.at = name[0], name.end()
        if field not in self.fields:
            raise FilterFault(3, start)
        return ("is", field, self.operator(field), self.value(field))

    def operator(self, field):
        start = self.skip()
        for operator in OPERATORS:
            if self.takes(operator):
                break
        else:
            raise FilterFault(2, start)
        if operator == "&" and self.text[self.at : self.at + 1] == "&":
            raise FilterFault(2, start)
        if operator not in (["==", "!=", "~"] if field in TEXTS else OPERATORS[:-1]):
            raise FilterFault(4, start)
        self.is_pattern = operator == "~"
        return operator

    def value(self, field):
        start = self.skip()
        quote = self.text[start : start + 1]
        value = self.quoted(start) if quote and quote in "'\"" else self.number(start)
        if isinstance(value, str) != (field in TEXTS):
            raise FilterFault(4, start)
        if isinstance(value, int) and not -(2**63) <= value < 2**63:
            raise FilterFault(6, start)
        if self.is_pattern and read_pattern(value) is None:
            raise FilterFault(5, start)
        return value

    def quoted(self, start):
        end = self.text.find(self.text[start], start + 1)
        if end < 0:
            raise FilterFault(2, start)
        self.at = end + 1
        return self.text[start + 1 : end]

    def number(self, start):
        run = RUN.match(self.text, start)
        if not NUMBER.fullmatch(run[0]):
            raise FilterFault(2, start)
        self.at = run.end()
        return int(run[0], 16 if run[0].startswith("0x") else 10)


def read_filter(text, fields):
    reading = Reading(text, fields)
    tree = reading.whole()
    if reading.skip() < len(text):
        raise FilterFault(2, reading.at)
    return tree


@functools.cache
def read_pattern(pattern):
    """The items of a pattern of `~`: None for `*`, or the bytes of which one may stand there; None if it is no pattern."""
    if "\\" in pattern or pattern.startswith("!"):
        return None
    items, at = [], 0
    while at < len(pattern):
        if pattern[at] == "[":
            item, at = read_class(pattern, at + 1)
            if item is None:
                return None
        else:
            item, at = {"*": None, "?": BYTES}.get(pattern[at], {pattern[at]}), at + 1
        items.append(item)
    return items


def read_class(pattern, at):
    """The bytes of a class, or None, and the place after it; `at` is after the `[`."""
    turned = pattern.startswith("!", at)
    at += turned
    members = set()
    while at < len(pattern) and pattern[at] != "]":
        first = last = pattern[at]
        if pattern[at + 1 : at + 2] == "-" and pattern[at + 2 : at + 3] not in ("", "]"):
            last = pattern[at + 2]
            at += 2
        if first > last:
            return None, at
        members |= set(map(chr, range(ord(first), ord(last) + 1)))
        at += 1
    if at == len(pattern) or not members:
        return None, at
    return BYTES - members if turned else members, at + 1


def matches(items, text):
    """Whether the items, each after the one before it, are the whole text: by the places at which the items so far may end."""
    ends = {0}
    for item in items:
        if item is None:
            ends = set(range(min(ends, default=len(text) + 1), len(text) + 1))
        else:
            ends = {at + 1 for at in ends if at < len(text) and text[at] in item}
    return len(text) in ends


def passes(tree, value_of):
    """Whether the filter holds for an event, whose fields `value_of` gives."""
    if tree[0] == "is":
        _, field, operator, value = tree
        return MEANINGS[operator](value_of(field), value)
    if tree[0] == "not":
        return not passes(tree[1], value_of)
    return (any if tree[0] == "any" else all)(passes(part, value_of) for part in tree[1])


def filter_text(tree, inside=""):
    """The canonical text; `inside` is the word of the tree around it."""
    if tree[0] == "is":
        _, field, operator, value = tree
        quote = "'" if isinstance(value, str) and '"' in value else '"'
        return f"{field} {operator} " + (f"{quote}{value}{quote}" if isinstance(value, str) else str(value))
    if tree[0] == "not":
        return "!" + filter_text(tree[1], "not")
    text = (" || " if tree[0] == "any" else " && ").join(filter_text(part, tree[0]) for part in tree[1])
    return f"({text})" if inside in ("not", "all", tree[0]) else text
