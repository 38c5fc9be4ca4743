#!/usr/bin/env python3
"""Checks that the launchers (tools/words) and the Python package (histdesk.trace.kind) tell kinds of files apart alike.

    kinds.py > WHAT WENT WRONG

For each file, both decide what it is if it is no text (packed, or a recording), whether perf or trace-cmd printed it, and
whether it looks like a trace. The files are made here, with the first bytes that the package knows, or are the scripts and
traces of the examples and of tests/rows. The last line says how many things hold. It needs the library.
"""

import os
import subprocess
import sys
import tempfile
from pathlib import Path
from typing import Dict, Iterator, Tuple

# Nothing is written beside the sources.
sys.dont_write_bytecode = True
ROOT = Path(__file__).resolve().parents[2]
sys.path.insert(0, str(ROOT / "python"))

from histdesk.trace import kind as file_kind

# What the launchers say of each file: a line with what it is, or nothing; and a line that says whether it looks like a trace.
ASK = """
. "$1"
tools=tools/
for file in "${@:2}"; do
    begin "$file"
    peek "$file"
    describe_kind
    printf '%s\\n' "$remark"
    is_trace && echo yes || echo no
done
"""
SWITCH = "sched_switch: prev_comm=a prev_pid=1 prev_prio=120 prev_state=S ==> next_comm=b next_pid=2 next_prio=120"
WAKING = "sched_waking: comm=b pid=2 prio=120 target_cpu=000"
OF_PERF = f"    a b    18 [000]  3752.816376632:     sched:{WAKING}\n"
OF_TRACE_CMD = f"  a-1     [000]     1.000000000: {WAKING}\n"
# Without -N, plugins of trace-cmd print a switch.
OF_PLUGINS = "  perf-1     [000]     1.000000: sched_switch:         perf:1 [120] S ==> b:2 [120]\n"
OF_KERNEL = f"   a-1       [000] d..2.     1.000000: {SWITCH}\n"
# Texts, each with the kind that it should have: what printed it, or whether it looks like a trace.
TEXTS: Dict[str, Tuple[str, str]] = {
    "perf": ("perf script", OF_PERF),
    "perf-comments": ("perf script", f"# a comment\n\n#\n{OF_PERF}"),
    "perf-of-others": ("perf script", "swapper     0 [003] 10.000001: irq:irq_handler_entry: irq=1\n"),
    "perf-with-pid": ("perf script", OF_PERF.replace("18 [", "18/18    [")),
    "perf-of-gone": ("perf script", OF_PERF.replace("18 [", "-1 [")),
    "report": ("trace-cmd report", f"cpus=4\n{OF_TRACE_CMD}"),
    "report-without-head": ("trace-cmd report", OF_TRACE_CMD),
    "report-of-plugins": ("trace-cmd report", f"{OF_TRACE_CMD.replace('000000000', '000000')}{OF_PLUGINS}"),
    "report-in-kernel-layout": ("trace", OF_PLUGINS.replace("perf:1 [120] S ==> b:2 [120]", SWITCH[14:])),
    "report-version": ("trace-cmd report", f"version = 7\ncpus=4\n{OF_TRACE_CMD}"),
    "trace": ("trace", f"# tracer: nop\n#\n{OF_KERNEL}"),
    "trace-of-header": ("trace", "# tracer: nop\n#\n"),
    "trace-without-header": ("trace", OF_KERNEL),
    "trace-after-blanks": ("trace", f"\n \t\n{OF_KERNEL}"),
    # The columns of a line of perf script are a part of the task's name.
    "trace-of-odd-name": ("trace", f"x 1 [0] 1.0: y: -7 [000] d..2. 1.000000: {SWITCH}\n"),
    "script": ("", "# load a trace\nload @1\nattach sched_waking hist:keys=pid\n"),
    "script-of-lines": ("", f"insert {OF_KERNEL}"),
    "prose": ("", "some text\n"),
    "empty": ("", ""),
    "blank": ("", "\n \n\t\n"),
    "comments": ("", "# a\n# b\n"),
    "version": ("", "version 7\n"),
    "other-comment": ("", "#tracer: nop\n"),
}


def made_files(folder: Path) -> Iterator[Tuple[Path, str]]:
    """Write the files that are made here, and go through their paths and kinds."""
    for magic, packer in file_kind.PACKERS.items():
        path = folder / f"packed by {packer.name}"
        path.write_bytes(magic + bytes(range(256)))
        yield path, packer.name
    for number, (magic, origin) in enumerate(file_kind.RECORDINGS.items()):
        path = folder / f"recording-{number}"
        path.write_bytes(magic + bytes(100) + OF_PERF.encode())
        yield path, origin.what
    for name, (kind, text) in TEXTS.items():
        path = folder / name
        path.write_text(text, encoding="utf-8")
        yield path, kind


def of_package(path: Path) -> Tuple[str, str]:
    """Return what the package says of a file, in the form of the launchers."""
    front = file_kind.first_bytes(str(path))
    kind = file_kind.for_program(front, str(path))
    if kind is not None:
        # The launchers say which file it is.
        quoted = subprocess.run(["bash", "-c", 'printf %q "$1"', "bash", path], stdout=subprocess.PIPE, text=True, check=True)
        kind = quoted.stdout + kind.removeprefix("it").replace(file_kind.shlex.quote(str(path)), quoted.stdout)
    elif file_kind.printed_origin(front):
        kind = file_kind.why_no_trace(front, str(path))
    return kind or "", "yes" if file_kind.looks_like_trace(front) else "no"


def main() -> int:
    """Print what went wrong, and return the exit status."""
    with tempfile.TemporaryDirectory() as name:
        kinds = dict(made_files(Path(name)))
        others = [
            *(ROOT / "examples").rglob("*.script"),
            *(ROOT / "examples").glob("*.trace"),
            *(ROOT / "tests/rows").glob("*/*"),
        ]
        paths = [*kinds, *sorted(path for path in others if path.is_file())]
        ask = subprocess.run(["bash", "-c", ASK, "bash", ROOT / "tools/words", *paths], stdout=subprocess.PIPE, check=True)
        lines = os.fsdecode(ask.stdout).splitlines()
        answers = dict(zip(paths, zip(lines[::2], lines[1::2])))
        wrong = [f"{path}: {answers[path]}, and {of_package(path)}" for path in paths if answers[path] != of_package(path)]
        for path, kind in kinds.items():
            remark, is_trace = answers[path]
            if not (is_trace == "yes" if kind == "trace" else kind in remark if kind else not remark and is_trace == "no"):
                wrong.append(f"{path.name} is {remark or 'nothing'}, trace: {is_trace}, and not {kind or 'a text'}")
    count = len(paths) + len(kinds)
    print("\n".join([*wrong, f"{count - len(wrong)} of {count} things hold"]))
    return 1 if wrong or len(lines) != 2 * len(paths) else 0


if __name__ == "__main__":
    sys.exit(main())
