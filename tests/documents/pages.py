#!/usr/bin/env python3
"""Checks that the documents name what there is, and have the form that they should have.

    pages.py [--write] > WHAT WENT WRONG
    pages.py --links PAGE.. > WHAT WENT WRONG

In each document, a link leads to a file that is there, and to a heading of it; each file and folder of the repository that it
names is there; a line has at most 120 characters, except in tables and blocks; no word of AVOIDED stands in it. docs/ has the
pages of PAGES and no others. A document or script that sources and scripts name is there. README.md has
the line that build/needs prints; README.md, docs/TESTING.md and bench/README.md count what there is, and --write writes these
counts there first. The logic and the kits that documents name are those of build/recipes.py, and the seconds in README.md are
those of bench/README.md.
--links looks only at the links of these pages, which may stand anywhere. The last line says how many things hold.
"""

import ast
import glob
import os
import re
import runpy
import subprocess
import sys
import unicodedata
from collections import Counter
from typing import List

ROOT = os.path.realpath(os.path.join(os.path.dirname(os.path.realpath(__file__)), "..", ".."))
# Nothing is written beside the sources.
sys.dont_write_bytecode = True
sys.path.append(os.path.join(ROOT, "build"))

import graph

# The pages, each for one reader.
PAGES = [
    "README.md",
    "docs/GUIDE.md",
    "docs/REFERENCE.md",
    "docs/LIBRARY.md",
    "docs/PROOF.md",
    "docs/TESTING.md",
    "docs/HACKING.md",
    "docs/DECISIONS.md",
    "bench/README.md",
]
# The other documents: one about the past, one that a program writes, and those that point elsewhere.
PAST = "CHANGELOG.md"
OTHERS = [PAST, "docs/CRATES.md", "examples/README.md", "tools/README.md", "python/README.md"]
# Has a table of what there is, by `counts`; the others have numbers in sentences, by `SENTENCES`.
COUNTING = "docs/TESTING.md"
MOST = 120
AVOIDED = [
    r"wants? of memory",
    r"but for",
    r"our own choice",
    r"behind",
    r"as yet|formerly|previously|used to be|until now",
    r"/work/|/root/|/home/",
]
# Folders whose files are made by programs.
MADE = re.compile(r"/out(/|$)|^dist(/|$)")
NAME = re.compile(r"(?:\./)?[\w.*{},+-]+(?:/[\w.*{},+-]+)*/?")


def text_of(path: str) -> str:
    with open(os.path.join(ROOT, path), encoding="utf-8") as file:
        return file.read()


def is_there(path):
    return os.path.exists(os.path.join(ROOT, path))


# ---- a document's parts


def without_blocks(text: str) -> List[str]:
    """Return the lines of the text, without what stands in blocks."""
    lines, fence = [], None
    for line in text.split("\n"):
        mark = re.match(r" *(```+|~~~+)", line)
        if fence:
            fence = None if mark and mark[1].startswith(fence) and not line.strip("`~ ") else fence
            lines.append("")
        elif mark:
            fence = mark[1]
            lines.append("")
        else:
            lines.append(line)
    return lines


def slug(heading):
    """Return what a heading is called in a link."""
    plain = re.sub(r"!?\[([^]]*)\]\([^)]*\)", r"\1", heading).replace("`", "")
    kept = [byte for byte in plain.strip().lower() if byte in "-_ " or unicodedata.category(byte)[0] in "LN"]
    return "".join(kept).replace(" ", "-")


def anchors(path):
    """Return the names of a document's headings: of those that are alike, the second one has -1 at its end, and so on."""
    names, counts = set(), Counter()
    for line in without_blocks(text_of(path)):
        heading = re.match(r"#+ +(.*?) *#*$", line)
        if heading:
            name = slug(heading[1])
            names.add(f"{name}-{counts[name]}" if counts[name] else name)
            counts[name] += 1
        names.update(re.findall(r'<a (?:id|name)="([^"]*)"', line))
    return names


# ---- links and names


def links(path):
    """Return the links of a document, and what is wrong with them."""
    text = re.sub(r"`[^`\n]*`", "``", "\n".join(without_blocks(text_of(path))))
    targets = re.findall(r"\]\(\s*<?([^)\s>]+)", text) + re.findall(r"^\[[^]]+\]: +(\S+)", text, re.MULTILINE)
    targets = [target for target in targets if not re.match(r"[a-z]+:", target)]
    wrong = []
    for target in targets:
        file, _, anchor = target.partition("#")
        there = os.path.normpath(os.path.join(os.path.dirname(path), file)) if file else path
        if not is_there(there):
            wrong.append(f"{path}: no file for the link {target}")
        elif anchor and there.endswith(".md") and anchor not in anchors(there):
            wrong.append(f"{path}: no heading for the link {target}")
    return targets, wrong


def paths_of(name):
    """Return the paths of a name: `a/{b,c}.rt` is two."""
    form = re.fullmatch(r"(.*?)\{([^{}]*)\}(.*)", name)
    return [path for part in form[2].split(",") for path in paths_of(form[1] + part + form[3])] if form else [name]


def names(path):
    """Return the files and folders that a document names in code, and those that aren't there. A name begins with a folder or
    file at the top, or with a crate."""
    tops = {name for name in os.listdir(ROOT) if name not in (".git", "README.md")}
    crates = set(os.listdir(os.path.join(ROOT, "crates")))
    text = text_of(path)
    words = [code.split() for code in re.findall(r"(?<!`)`([^`\n]+)`(?!`)", "\n".join(without_blocks(text)))]
    # From a block with commands, the first word of each line.
    blocks = re.findall(r"^```(?:sh|console)\n(.*?)^```", text, re.MULTILINE | re.DOTALL)
    words += [re.sub(r"^(\$ |> )?(sudo |time )?", "", line).split()[:1] for block in blocks for line in block.split("\n")]
    present, wrong = [], []
    for word in (word.rstrip(",.:;") for code in words for word in code[:2]):
        if not NAME.fullmatch(word) or "/" not in word.rstrip("/"):
            continue
        for one in paths_of(word):
            first = one[2:].split("/")[0] if one.startswith("./") else one.split("/")[0]
            if first not in tops and first not in crates or MADE.search(one):
                continue
            present.append(one)
            # NAME stands for any name.
            form = re.sub(r"\b[A-Z]+(?=/|$)", "*", one)
            places = [os.path.join(ROOT, form), os.path.join(ROOT, "crates", form)]
            if not any(glob.glob(place) for place in places):
                wrong.append(f"{path}: {one} isn't there")
    return present, wrong


def mentions():
    """Return the documents and scripts that sources and scripts name, and those that aren't there."""
    own = ["*.md", "tests/rows", "examples/*.trace", "examples/*.expected", "*.edit"]
    words = ["git", "-C", ROOT, "ls-files", "-z", "--cached", "--others", "--exclude-standard", "--", "."]
    ran = subprocess.run([*words, *(f":!{form}" for form in own)], stdout=subprocess.PIPE, check=True)
    pages, names, wrong = {os.path.basename(path) for path in files("**", "*.md")}, [], []
    scripts = {os.path.basename(path) for form in ("*.py", "*.sh") for path in files("**", form)}
    for path in ran.stdout.decode().split("\0")[:-1]:
        try:
            text = text_of(path) if is_there(path) else ""
        except UnicodeDecodeError:
            continue
        for name in re.findall(r"(?<![\w/.-])(?:docs|tests|bench|tools|examples|include)/[\w/-]+\.(?:py|sh|md|c|h|rs)\b", text):
            names.append(name)
            if not is_there(name) and not is_there(os.path.join(os.path.dirname(path), name)):
                wrong.append(f"{path}: {name} isn't there")
        # Tests also name files that they make.
        bare = [] if path.startswith("tests/") else re.findall(r"(?<![\w/.*{},}-])[a-z_]+\.(?:py|sh)\b", text)
        for name in [*re.findall(r"(?<![\w/.-])[A-Z]{4,}\.md\b", text), *bare]:
            names.append(name)
            if name not in pages | scripts:
                wrong.append(f"{path}: {name} isn't there")
    return names, wrong


# ---- form


def form(path):
    """Return the lines of a document, and which are too long or have words that should not stand there."""
    lines, wrong = without_blocks(text_of(path)), []
    for number, line in enumerate(lines, 1):
        if len(line) > MOST and not line.startswith("|") and not re.fullmatch(r"\S+", line):
            wrong.append(f"{path}:{number}: {len(line)} characters")
    # Several words may go over the end of a line.
    text = "\n".join(lines)
    for words in AVOIDED:
        for match in re.finditer(rf"(?<![\w`])(?:{words})".replace(" ", r"\s"), text, re.IGNORECASE):
            number = text.count("\n", 0, match.start()) + 1
            wrong.append(f"{path}:{number}: {' '.join(match[0].split())!r} should not stand there")
    return lines, wrong


def pages():
    """Return the pages of docs/, and which of them have no place or are missing."""
    there = [os.path.relpath(path, ROOT) for path in glob.glob(os.path.join(ROOT, "docs", "*.md"))]
    wrong = [f"{path} has no place among the documents" for path in there if path not in [*PAGES, *OTHERS]]
    return there, wrong + [f"{path} is missing" for path in PAGES if not is_there(path)]


# ---- what is printed and counted


def packages():
    """Return the line that installs what is needed from Debian, and a remark if README.md lacks it, where it may have several
    lines."""
    ran = subprocess.run([os.path.join(ROOT, "build", "needs")], stdout=subprocess.PIPE, check=True, universal_newlines=True)
    line, readme = ran.stdout.split(), re.sub(r"\\\n", " ", text_of("README.md"))
    there = line in [text.split()[1:] for text in readme.split("\n")]
    return [line], [] if there else ["README.md lacks what build/needs prints"]


def kits():
    """Return the names of kits and logics in documents, and those that are missing, or that nothing was proved with."""
    # A script beside this one has the same name.
    recipes = runpy.run_path(os.path.join(ROOT, "build", "recipes.py"))
    wanted = {recipes["LOGIC"], *recipes["KITS"]}
    pages = {path: set(re.findall(r"\brattle-kit-\w+|\b[0-9a-f]{16}\b", text_of(path))) for path in [*PAGES, "NOTICE"]}
    wrong = [f"{path}: {name} is none of build/recipes.py" for path, names in pages.items() for name in names - wanted]
    wrong += [f"{path}: lacks {name}" for path in ("README.md", "docs/PROOF.md") for name in wanted - pages[path]]
    return [name for names in pages.values() for name in names], wrong


def seconds():
    """Return the seconds that README.md compares with perf's, and those that bench/README.md doesn't have, by events in
    millions."""
    table = text_of("bench/README.md").partition("two recordings of `perf bench sched`: ")[2]
    events = [round(int(number.replace(",", "")) / 1e6, 1) for number in re.findall(r"([0-9,]{9,}) events", table)[:2]]
    rows = dict(re.findall(r"^\| (`[^|]*`) \| (.*) \|$", table, re.MULTILINE))
    columns = [(rows[f"`{name}`"].split(" | ")[0::2]) for name in ("tools/waits", "perf sched latency")]
    measured = [(str(number), *times) for number, *times in zip(events, *columns)]
    form = r"those of ([\d.]+) million[^;]*?,? ([\d.]+) s, compared with ([\d.]+) s"
    told = re.findall(form, text_of("README.md").replace("The waits of", "those of"))
    return told, [f"README.md: {' '.join(one)} isn't in bench/README.md" for one in set(told) ^ set(measured)]


def tests_in(*names):
    """Return how many tests these files of Python have."""
    paths = (os.path.join(ROOT, "tests", name) for name in names)
    trees = (ast.walk(ast.parse(text_of(path))) for form in paths for path in glob.glob(form))
    return sum(isinstance(node, ast.FunctionDef) and node.name.startswith("test") for tree in trees for node in tree)


def files(*parts):
    return glob.glob(os.path.join(ROOT, *parts), recursive=True)


def counts():
    """Return what docs/TESTING.md counts, and how much there is of it."""
    crates = files("tests", "crates", "src", "**", "*.rt.in")
    return {
        "Edits that must fail": len(files("crates", "*", "*", "*.edit")),
        "Tests of the crates": sum(text_of(path).count("\n#[test]") for path in crates),
        "Rows": len(files("tests", "rows", "*", "script")),
        "Tests in Python of package and tools": tests_in("library/*.py"),
        "Tests of the page in a browser": tests_in("page/*.py"),
    }


def sentences():
    """Return the sentences of pages that count something, as patterns around the number, with how much there is of it."""
    below = graph.read_crates()
    first, products = [graph.PRODUCTS["histdesk"].crate], [product.crate for product in graph.PRODUCTS.values()]
    return [
        ("README.md", r"(refuses )([0-9,]+)( planted mistakes)", counts()["Edits that must fail"]),
        ("bench/README.md", r"(`build/build` proves )([0-9,]+)( crates)", len(graph.in_order(products, below))),
        ("bench/README.md", r"(`rt ci` proves all )([0-9,]+)(, with)", len(below)),
        ("bench/README.md", r"(`\./histdesk`, proves )([0-9,]+)( of the)", len(graph.in_order(first, below))),
        ("bench/README.md", r"( of the )([0-9,]+)( crates; it has)", len(graph.in_order(products, below))),
    ]


def counted(path):
    """Return the text of a page with the counts of what there is."""
    text = text_of(path)
    for what, count in counts().items() if path == COUNTING else ():
        text = re.sub(rf"^(\| {what} \| )[0-9,]+ \|", rf"\g<1>{count:,} |", text, flags=re.MULTILINE)
    for page, form, count in sentences():
        text = re.sub(form.replace(" ", r"\s"), rf"\g<1>{count:,}\g<3>", text) if page == path else text
    return text


def write_counts(path):
    text = counted(path)
    with open(os.path.join(ROOT, path), "w", encoding="utf-8") as file:
        file.write(text)


def check_counts():
    """Return what pages count, and where they count something else than there is, or nothing."""
    rows = dict(re.findall(r"^\| ([^|]*?) \| ([0-9,]+) \|", text_of(COUNTING), re.MULTILINE))
    wrong = [f"{COUNTING}: {what}: {count} (--write)" for what, count in counts().items() if rows.get(what) != f"{count:,}"]
    for path, form, count in sentences():
        found = re.findall(form.replace(" ", r"\s"), text_of(path))
        if [number for _, number, _ in found] != [f"{count:,}"]:
            wrong.append(f"{path}: {form}: {count} (--write)")
    return [*counts(), *sentences()], wrong


def all_things():
    """Return what there is of each kind, and what is wrong with it."""
    documents = [path for path in [*PAGES, *OTHERS] if is_there(path)]
    results = [links(path) for path in documents]
    results += [check(path) for path in documents if path != PAST for check in (names, form)]
    return results + [mentions(), pages(), packages(), kits(), seconds(), check_counts()]


def main():
    if sys.argv[1:] == ["--write"]:
        for path in {COUNTING, *(path for path, _, _ in sentences())}:
            write_counts(path)
    is_of_links = sys.argv[1:2] == ["--links"]
    results = [links(os.path.abspath(path)) for path in sys.argv[2:]] if is_of_links else all_things()
    count, wrong = sum(len(things) for things, _ in results), [line for _, lines in results for line in lines]
    print("\n".join([*wrong, f"{max(count - len(wrong), 0)} of {count} things hold"]))
    return 1 if wrong else 0


if __name__ == "__main__":
    sys.exit(main())
