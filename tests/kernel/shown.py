"""What both sides of kernel.sh have shown: the files that the guest wrote, and what the desk prints for the same triggers.
Cases are those of triggers.py; what is found is put into them."""

import itertools
import subprocess
import sys

sys.dont_write_bytecode = True

from tables import blocks

LOST = ["overrun", "commit overrun", "dropped events"]


def text_of(path):
    with open(path, encoding="latin-1", newline="") as file:
        return file.read()


def what_is_lost(out):
    """Return lines that say what the buffers have lost, or that the workload failed; and how many events the buffers held."""
    stats = text_of(f"{out}/stats").split("\n")
    lost = [f"events were lost: {line}" for line in stats if line.split(":")[0] in LOST and not line.endswith(": 0")]
    status = text_of(f"{out}/status").strip()
    if status != "0":
        lost.append(f"the workload ended with status {status}")
    return lost, sum(int(line.split(": ")[1]) for line in stats if line.startswith("entries: "))


def refusals(cases, out):
    """Put into each case what the kernel refused of it."""
    by_number = {case["number"]: case for case in cases}
    for line in text_of(f"{out}/refused").split("\n")[:-1]:
        number, file, error = line.split("\t")
        case = by_number[int(number)]
        case["kernel refuses" if file.startswith("events/sched/") else "synthetic refused"] = error or "without a message"


def kernel_blocks(cases, out):
    """Put into each case that the kernel took its part of the `hist` file, and that of its synthetic event."""
    left = {}
    for case in cases:
        if "kernel refuses" in case:
            continue
        name = case["event"]
        if name not in left:
            left[name] = blocks(text_of(f"{out}/{name}.hist"))
        case["block"] = left[name].pop(0)
        if "synthetic" in case and "synthetic refused" not in case:
            (case["summed"],) = blocks(text_of(f"{out}/{case['synthetic']}.hist"))
    if any(left.values()):
        raise ValueError("a hist file shows more triggers than were attached")


def desk_runs(cases, folder, program):
    """Put into each case what the desk answers, and return how many events it loaded. A desk has at most 64 triggers; one
    that it may refuse has a desk of its own."""
    runs, loaded = [[]], 0
    for group in {case["group"]: None for case in cases}:
        members = [case for case in cases if case["group"] == group]
        if len(runs[-1]) + len(members) > 64 or "known" in members[0]:
            runs.append([])
        runs[-1] += members
        if "known" in members[0]:
            runs.append([])
    for number, run in enumerate(filter(None, runs), 1):
        while run:
            loaded = desk_run(run, f"{folder}/desk{number}", f"{folder}/out/trace", program)
            bad = {case["group"] for case in run if "desk refuses" in case}
            run = [case for case in run if case["group"] not in bad] if bad else []
    return loaded


def desk_run(run, path, trace, program):
    lines = ["load @1"] + [f"attach {case['event']} {case['text']}" for case in run]
    for number, case in enumerate(run, 1):
        lines += [f"hist {number}", f"totals {number}"] + [f"lat {number}"] * ("synthetic" in case)
    with open(f"{path}.script", "w", encoding="latin-1") as script:
        script.write("\n".join(lines) + "\n")
    ended = subprocess.run([program, f"{path}.script", trace], capture_output=True, timeout=300)
    with open(f"{path}.output", "wb") as output:
        output.write(ended.stdout)
    told = iter(ended.stdout.decode("latin-1").split("\n"))
    loaded = next(told)
    if ended.returncode not in (0, 1) or ended.stderr or not loaded.startswith("loaded "):
        raise ValueError(f"the desk ended with status {ended.returncode}: {loaded} {ended.stderr.decode('latin-1')}")
    for case, line in zip(run, list(itertools.islice(told, len(run)))):
        if line.startswith("refused "):
            case["desk refuses"] = line
    for case in [] if any("desk refuses" in case for case in run) else run:
        case["answer"] = up_to(told, "    Dropped: ")
        case["totals"] = next(told, "")
        if "synthetic" in case:
            case["lat"] = up_to(told, "Latencies: ")[:-1]
    return int(loaded.split()[1])


def up_to(lines, front):
    """Return the next lines, up to the one that begins with `front`."""
    taken = []
    for line in lines:
        taken.append(line)
        if line.startswith(front):
            return taken
    raise ValueError(f"the desk's output ends before a line that begins with {front}")
