#!/usr/bin/env bash
# real.sh [OPTION].. PROGRAM: records five seconds of a workload that it starts itself, by tools/record, and compares what
# PROGRAM, a built histdesk, answers over that trace with what the plain model in Python answers (model/model.py): tables,
# totals, latencies and lists, before and after twenty edits. It is run by hand, never in CI: it needs root and tracefs, and
# takes some minutes, since the model replays at each answer. It prints what differs, and a last line with the counts. The
# status is 0, or 1 if an answer differs, or 2 if it could not run.
set -euo pipefail

usage='usage: tests/real.sh [OPTION].. PROGRAM

  --tracefs FOLDER  where tracefs is mounted (/sys/kernel/tracing)
  --seconds N       so long a trace is recorded (5)
  --seed N          that of the workload and of the edits (1)
  --keep FOLDER     the trace, the script and both outputs are left there

It needs root, tracefs, cc and python3. Of the trace it takes the first 60,000 lines.'

tests=$(dirname -- "$(realpath -- "${BASH_SOURCE[0]}")")
tracefs=/sys/kernel/tracing
seconds=5
seed=1
keep=
most=60000

stop() {
    printf 'real.sh: %s\n' "$1" >&2
    exit 2
}

while (($# > 0)); do
    case $1 in
    --help)
        printf '%s\n' "$usage"
        exit 0
        ;;
    --tracefs | --seconds | --seed | --keep)
        [[ -n ${2-} ]] || stop "$1 needs a word after it; --help says more"
        declare "${1#--}=$2"
        shift 2
        ;;
    -*) stop "no such option: $1; --help says more" ;;
    *) break ;;
    esac
done
(($# == 1)) || stop "wants one word, PROGRAM; --help says more"
[[ $seconds =~ ^[1-9][0-9]?$ ]] || stop "no number of seconds: $seconds"
[[ $seed =~ ^[0-9]{1,9}$ ]] || stop "no seed: $seed"
program=$(realpath -- "$1")
[[ -f $program && -x $program ]] || stop "no program: $1"
command -v cc >/dev/null || stop "cc is missing"
command -v python3 >/dev/null || stop "python3 is missing"

folder=$(mktemp -d)
work=
# shellcheck disable=SC2317 # the trap calls it
finish() {
    # The loop ends by itself if its folder is gone, and each round of the workload ends soon.
    rm -rf -- "$folder"
    [[ -z $work ]] || wait "$work" 2>/dev/null || true
}
trap finish EXIT

# Runs the workload again and again as long as the file `go` is there.
rounds() {
    local round=$seed
    while [[ -e $folder/go ]]; do
        "$folder/workload" "$round" >/dev/null 2>&1 || true
        round=$((round + 1))
    done
}

# Writes a script over the trace: triggers, answers, twenty edits, the same answers. After each command stands one that
# is refused, so that the outputs of the commands can be told apart.
write_script() {
    python3 - "$folder/trace" "$seed" >"$folder/script" <<'PY'
import random
import re
import sys

draw, lanes, lines = random.Random(int(sys.argv[2])), {}, []
for line in open(sys.argv[1], encoding="latin-1"):
    found = re.search(r"\[(\d+)\].* (\d+\.\d{6}): (sched_\w+): ", line)
    cpu = re.search(r"-\d+ +\[(\d+)\] ", line)
    if not line.startswith("#") and not line.startswith("CPU:") and cpu:
        number = lanes[int(cpu[1])] = lanes.get(int(cpu[1]), 0) + 1
        if found and "=job" in line:
            lines.append((int(cpu[1]), number, line.rstrip("\n")))
triggers = [
    'sched_waking hist:keys=pid:ts0=common_timestamp.usecs',
    'sched_switch hist:keys=next_pid:vals=$lat:lat=common_timestamp.usecs-$ts0:sort=$lat.descending',
    'sched_waking hist:keys=comm,prio:vals=pid,target_cpu:sort=hitcount.descending,comm:size=128 if comm ~ "job*"',
    'sched_wakeup hist:keys=prio.log2,target_cpu:vals=pid:sort=prio if pid & 1 || prio < 100',
    'sched_wakeup_new hist:keys=pid.buckets=64,comm:sort=pid',
    'sched_switch hist:keys=prev_comm,prev_state:sort=hitcount.descending if !(prev_comm ~ "*swapper*")',
    'sched_switch hist:keys=prev_pid:out=common_timestamp.usecs:size=128 if prev_comm ~ "job*"',
    'sched_switch hist:keys=next_pid:vals=$off,next_prio:off=common_timestamp.usecs-$out:size=128',
    'sched_waking hist:keys=common_pid.hex,common_cpu:vals=prio:sort=common_cpu.descending,hitcount if common_pid > 0',
]
readers = [number for number, text in enumerate(triggers, 1) if "-$" in text]


def answers():
    for number in range(1, len(triggers) + 1):
        yield f"totals {number}"
        yield f"hist {number}"
        if number in readers:
            yield f"lat {number}"
    for cpu in sorted(lanes):
        yield f"list {cpu}"


def moved(line):
    """The line a little earlier or later."""
    found = re.search(r" (\d+)\.(\d{6}): sched_", line)
    stamp = int(found[1]) * 10**6 + int(found[2]) + draw.randint(-2000, 2000)
    return f"{line[: found.start()]} {stamp // 10**6}.{stamp % 10**6:06}: {line[found.end() - 6 :]}"


def edits():
    for cpu, number, _ in draw.sample(lines, 9):
        yield f"strike {cpu}:{number}"
    for _, _, line in draw.sample(lines, 8):
        yield f"insert {moved(line)}"
    yield "filter 4 if prio >= 100 && target_cpu != 0"
    yield "filter 9 none"
    yield 'filter 2 if next_comm ~ "job*"'


for command in ["load @1", *(f"attach {text}" for text in triggers), *answers(), *edits(), *answers()]:
    print(command)
    print("told")
PY
}

# Compares both outputs, command by command.
compare() {
    python3 - "$folder" <<'PY'
import sys


def parts(name):
    """The outputs of the commands, each as a list of lines."""
    told = [[]]
    for line in open(f"{folder}/{name}", encoding="latin-1", newline="\n"):
        told[-1].append(line)
        if line == "refused 16\n":
            told.append([])
    return told


folder, passed, failed = sys.argv[1], 0, 0
commands = open(f"{folder}/script", encoding="latin-1").read().split("\ntold\n")[:-1]
desk, model = parts("desk"), parts("model")
for command, left, right in zip(commands, desk, model):
    if left == right and left[-1:] == ["refused 16\n"]:
        passed += 1
        continue
    failed += 1
    pairs = list(zip(left + ["nothing"], right + ["nothing"]))
    first = next((pair for pair in pairs if pair[0] != pair[1]), pairs[-1])
    print(f"DIFFERS: {command}\n    desk : {first[0].rstrip()}\n    model: {first[1].rstrip()}")
if not len(desk) == len(model) == len(commands) + 1:
    failed += 1
    print(f"{len(commands)} commands, {len(desk) - 1} answers of the desk, {len(model) - 1} of the model")
latencies = sum(line.endswith(" us\n") for part in desk for line in part)
print(f"{latencies} latencies, {sum(line.startswith('{ ') for part in desk for line in part)} rows")
print(f"{passed} passed, {failed} failed")
sys.exit(failed > 0)
PY
}

cc -O2 -o "$folder/workload" "$tests/kernel/workload.c" || stop "cc cannot make the workload"
: >"$folder/go"
rounds &
work=$!
"$tests/../tools/record" --tracefs "$tracefs" "$seconds" >"$folder/whole" || stop "tools/record could not record; see above"
rm -- "$folder/go"
wait "$work"
work=
head -n "$most" -- "$folder/whole" >"$folder/trace"
grep -q '=job' "$folder/trace" || stop "the trace holds nothing of the workload"
write_script
status=0
"$program" "$folder/script" "$folder/trace" >"$folder/desk" || status=$?
((status < 2)) || stop "the program ended with status $status"
python3 "$tests/model/model.py" "$folder/script" "$folder/trace" >"$folder/model"
printf '%d lines of trace, %d commands\n' "$(wc -l <"$folder/trace")" "$(grep -cx told "$folder/script")"
status=0
compare || status=1
if [[ -n $keep ]]; then
    mkdir -p -- "$keep"
    cp -- "$folder"/{trace,script,desk,model} "$keep/"
fi
exit "$status"
