"""Runs a session of Python lines over the package, and prints what each returns, warns of and raises."""

from __future__ import annotations

import ast
import importlib
import warnings
from typing import Any

from same_forms import error_line, of_error, plain
from same_inputs import Facts

# Names that sessions have besides those of the package, with the facts that they stand for.
TEXTS = {"trace": "TRACE", "other": "OTHER", "start": "FROM", "middle": "MIDDLE", "until": "UNTIL", "task": "TASK"}
NUMBERS = {"cpu": "CPU", "line": "LINE", "begin_cpu": "BEGIN_CPU", "begin_line": "BEGIN_LINE", "pid": "PID"}
STAMPS = {"first_us": "FIRST_US", "from_us": "FROM_US", "until_us": "UNTIL_US", "last_us": "LAST_US"}


def names_of(facts: Facts) -> dict[str, Any]:
    """Return what a session's names stand for: the public ones of the package, and facts of the recording."""
    package = importlib.import_module("histdesk")
    names = {name: getattr(package, name) for name in package.__all__}
    names.update((name, facts[fact]) for name, fact in TEXTS.items() if fact in facts)
    names.update((name, int(facts[fact])) for name, fact in {**NUMBERS, **STAMPS}.items() if fact in facts)
    return names


def run(code: str, facts: Facts) -> int:
    """Run a session and print it: each statement, and below an expression its value. An error ends the session only if a name
    has no value because of it; the status is 0 all the same."""
    names = names_of(facts)
    for statement in ast.parse(code).body:
        print(f">>> {ast.get_source_segment(code, statement)}")
        with warnings.catch_warnings(record=True) as caught:
            warnings.simplefilter("always")
            lines = told(statement, names)
        for warning in caught:
            print(f"warns {error_line(warning.message) if isinstance(warning.message, Warning) else warning.message}")
        for line in lines:
            print(line)
        if lines and isinstance(statement, ast.Assign) and isinstance(statement.targets[0], ast.Name):
            break
    return 0


def told(statement: ast.stmt, names: dict[str, Any]) -> list[str]:
    """Run a statement, and return the plain form of its value, or of what it raises."""
    try:
        if isinstance(statement, ast.Expr):
            return plain(eval(compile(ast.Expression(statement.value), "session", "eval"), names))
        exec(compile(ast.Module([statement], []), "session", "exec"), names)
    except Exception as error:
        return of_error(error)
    return []
