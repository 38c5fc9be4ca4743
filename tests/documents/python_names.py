#!/usr/bin/env python3
"""Checks that what the documents name of the Python package in their running text is there.

    python_names.py > WHAT WENT WRONG

In backquotes, `histdesk.read(trace)`, `Desk.load`, `desk.strike(0, 9).changed` and `.counts().percentile(99.9)` name what the
package, a class of it, or a variable of any of its classes has; a word before `=` is a parameter. In the section on Python of
docs/LIBRARY.md each word that stands by itself names something of the package too. The package is read and not imported, so
this needs no library. The last line says how many names hold.
"""

import ast
import builtins
import re
import sys
from pathlib import Path
from typing import Any, Dict, FrozenSet, Iterator, List, NamedTuple, Optional, Tuple

# Nothing is written beside the sources.
sys.dont_write_bytecode = True

from pages import ROOT, text_of, without_blocks

PAGES = ["README.md", "docs/GUIDE.md", "docs/LIBRARY.md", "python/README.md"]
PACKAGE = "histdesk"
# Words of the section on Python that name things of other packages.
OTHERS = {PACKAGE, "distributed", "numpy", "pandas", "timedelta", "timedelta64"}
# What reads as an attribute and is none: names of files, and fields with a modifier.
NO_ATTRIBUTE = re.compile(r"\.(data|hex|log2|rt|script|so|trace|usecs)\b")


class Member(NamedTuple):
    """What a name stands for: the class of its value or of what it returns, if known, and the parameters that it takes."""

    kind: str
    parameters: FrozenSet[str] = frozenset()


Members = Dict[str, Member]

# ---- the package


def kind_of(annotation: Optional[ast.expr]) -> str:
    """Return the class that an annotation names, by itself or as an optional one."""
    match = re.fullmatch(r"(?:Optional\[)?['\"]?(\w+)['\"]?\]?(?: \| None)?", ast.unparse(annotation) if annotation else "")
    return match[1] if match else ""


def of_function(function: ast.FunctionDef) -> Member:
    parameters = function.args
    return Member(kind_of(function.returns), frozenset(one.arg for one in [*parameters.args, *parameters.kwonlyargs]))


def of_object(method: ast.FunctionDef) -> Iterator[Tuple[str, Member]]:
    """Yield what a method assigns to `self`."""
    for node in ast.walk(method):
        targets = node.targets if isinstance(node, ast.Assign) else [node.target] if isinstance(node, ast.AnnAssign) else []
        for target in targets:
            if isinstance(target, ast.Attribute) and isinstance(target.value, ast.Name) and target.value.id == "self":
                yield target.attr, Member(kind_of(getattr(node, "annotation", None)))


def members_of(kind: ast.ClassDef, classes: Dict[str, ast.ClassDef]) -> Members:
    """Return what a class has: fields, methods, what its methods assign, and what it inherits from classes of the package."""
    members: Members = {}
    for base in kind.bases:
        base_class: Any = {"NamedTuple": tuple}.get(kind_of(base), getattr(builtins, kind_of(base), None))
        members.update((name, Member("")) for name in dir(base_class) if base_class)
        if kind_of(base) in classes:
            members.update(members_of(classes[kind_of(base)], classes))
    for node in kind.body:
        if isinstance(node, ast.AnnAssign) and isinstance(node.target, ast.Name):
            members[node.target.id] = Member(kind_of(node.annotation))
        elif isinstance(node, ast.FunctionDef):
            members.update((name, member) for name, member in of_object(node) if name not in members)
            members[node.name] = of_function(node)
    return {name: member for name, member in members.items() if not name.startswith("_") or name == "__init__"}


def package() -> Dict[str, Members]:
    """Return what each public class has, by its name; under the package's own name, what the package has."""
    kinds: Dict[str, Members] = {PACKAGE: {}}
    modules = [ast.parse(path.read_text(encoding="utf-8")) for path in sorted(Path(ROOT, "python", PACKAGE).rglob("*.py"))]
    classes = {node.name: node for module in modules for node in module.body if isinstance(node, ast.ClassDef)}
    # The imports for type checkers are of names that are loaded later.
    for import_ in ast.walk(ast.parse(text_of(f"python/{PACKAGE}/__init__.py"))):
        if not isinstance(import_, ast.ImportFrom) or not import_.level:
            continue
        public = {name.name for name in import_.names}
        path = f"python/{PACKAGE}/{(import_.module or '').replace('.', '/')}.py"
        for node in ast.parse(text_of(path)).body:
            if isinstance(node, ast.FunctionDef) and node.name in public:
                kinds[PACKAGE][node.name] = of_function(node)
            elif isinstance(node, ast.ClassDef) and node.name in public:
                kinds[node.name] = members_of(node, classes)
                init = kinds[node.name].get("__init__", Member(""))
                kinds[PACKAGE][node.name] = Member(node.name, init.parameters or frozenset(kinds[node.name]))
            elif isinstance(node, ast.Assign) and kind_of(node.targets[0]) in public:
                kinds[PACKAGE][kind_of(node.targets[0])] = Member("str")
    return kinds


# ---- a page


class Page:
    """The names of a page, and those that aren't there."""

    def __init__(self, path: str, kinds: Dict[str, Members]) -> None:
        self.path, self.kinds = path, kinds
        self.count = 0
        self.wrong: List[str] = []

    def hold(self, name: str, code: str, holds: bool) -> None:
        self.count += 1
        if not holds:
            self.wrong.append(f"{self.path}: `{code}`: the package has no {name}")

    def meant(self, node: ast.expr, code: str) -> List[Member]:
        """Return what an expression may stand for; an empty list if that isn't known."""
        if isinstance(node, ast.Name):
            # The package, a class of it, or a variable, which may have the name of a function.
            return [Member(kind) for kind in self.kinds if kind == node.id or node.id not in self.kinds and kind != PACKAGE]
        if isinstance(node, ast.Call):
            own = self.kinds[PACKAGE].get(ast.unparse(node.func))
            members = [own] if own else self.meant(node.func, code)
            for keyword in node.keywords if members else []:
                self.hold(f"{keyword.arg}=", code, any(keyword.arg in member.parameters for member in members))
            return members
        if not isinstance(node, ast.Attribute):
            return []
        owners = self.meant(node.value, code)
        members = [self.kinds[owner.kind][node.attr] for owner in owners if node.attr in self.kinds.get(owner.kind, {})]
        # What isn't of the package, such as a number, may have anything.
        if members or (owners and all(owner.kind in self.kinds for owner in owners)):
            self.hold(node.attr, code, bool(members))
        return members

    def look(self, code: str) -> None:
        """Check the names of a piece of code, if it reads as one value of Python with a dot."""
        try:
            tree = ast.parse(("_" if code.startswith(".") else "") + code.replace("(..)", "(...)"), mode="eval").body
        except SyntaxError:
            return
        if isinstance(tree, (ast.Attribute, ast.Call)) and not NO_ATTRIBUTE.search(code):
            self.meant(tree, code)

    def look_alone(self, code: str) -> None:
        """Check a word, or a parameter with its value, that stands by itself."""
        members = [member for kind in self.kinds.values() for member in kind.values()]
        parameters = {name for member in members for name in member.parameters}
        names = {*OTHERS, *dir(builtins), *parameters}.union(*self.kinds.values())
        match = re.fullmatch(r"([a-z_]+)=.*", code)
        if match:
            self.hold(f"{match[1]}=", code, match[1] in parameters)
        elif re.fullmatch(r"[A-Za-z]\w*", code):
            self.hold(code, code, code in names)


def codes(text: str) -> List[str]:
    """Return what stands in backquotes in the running text, also over the end of a line."""
    return [" ".join(code.split()) for code in re.findall(r"`([^`]+)`", "\n".join(without_blocks(text)))]


def main() -> int:
    kinds = package()
    pages = [Page(path, kinds) for path in PAGES]
    for page in pages:
        for code in codes(text_of(page.path)):
            page.look(code)
    library = Page("docs/LIBRARY.md", kinds)
    for code in codes(text_of(library.path).partition("\n## Python\n")[2].partition("\n## ")[0]):
        library.look_alone(code)
    count, wrong = sum(page.count for page in [*pages, library]), [line for page in [*pages, library] for line in page.wrong]
    print("\n".join([*wrong, f"{count - len(wrong)} of {count} names hold"]))
    return 1 if wrong or not library.count else 0


if __name__ == "__main__":
    sys.exit(main())
