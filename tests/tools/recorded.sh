#!/usr/bin/env bash
# recorded.sh TOOLS: records the machine that runs it by TOOLS/record, with a buffer that is too small on purpose, while a
# workload runs. It compares what record and the package report of losses with the text, and checks that no doubtful wait is
# among the greatest ones. It needs root, tracefs and python3, and for the package the library; what is missing is not tried,
# and a line says so. It takes some seconds. It prints what went wrong, and a last line with the counts.
# shellcheck disable=SC2154,SC2317 # what counts.sh assigns; what `is` calls
set -uo pipefail

tests=$(dirname -- "$(dirname -- "$(realpath -- "${BASH_SOURCE[0]}")")")
tools=$(realpath -- "$1")
tracefs=/sys/kernel/tracing
. "$tests/counts.sh"

# is WHAT COMMAND..: checks that the command succeeds.
is() {
    if "${@:2}" >"$folder/said" 2>&1; then
        pass
    else
        fail "$1: $(<"$folder/said")"
    fi
}

not_tried() {
    skip "$1"
    finish
}

# Two processes that wake each other some thousand times.
workload=(python3 -c '
import os
(there, to_there), (back, to_back) = os.pipe(), os.pipe()
child = os.fork()
for _ in range(5000):
    if child:
        os.write(to_there, b"x")
        os.read(back, 1)
    else:
        os.read(there, 1)
        os.write(to_back, b"x")
')

# lost_of CPU: prints how many events of the CPU are lost, as record said; 0 if it said nothing of the CPU.
lost_of() {
    sed -nE "s/^record: CPU $1 lost ([0-9]+) of .*/\1/p" "$folder/err" | grep . || echo 0
}

# For each CPU, record reported at least as many lost events as a line of the text says, and the sum of these lines is that of
# the kernel's header.
reports_of_each() {
    local cpu count sum=0
    while read -r cpu count; do
        [[ $(lost_of "$cpu") -ge $count ]] || return
        sum=$((sum + count))
    done < <(sed -nE 's/^# CPU ([0-9]+): ([0-9]+) events overwritten$/\1 \2/p' "$folder/trace")
    [[ $sum -gt 0 && $sum == $(awk -F '[: /]+' '/^# entries-in/ { print $5 - $4 }' "$folder/trace") ]]
}

[[ $EUID == 0 ]] || not_tried "recording: not root"
[[ -d $tracefs/instances ]] || not_tried "recording: no tracefs at $tracefs"
command -v python3 >/dev/null || not_tried "recording: python3 is missing"

"$tools/record" --buffer 16 -o "$folder/trace" -- "${workload[@]}" 2>"$folder/err"
is "record ends well: $(<"$folder/err")" test $? == 0
is "the end of the workload is reported: $(<"$folder/err")" grep -q '^record: python3 ended with status 0$' "$folder/err"
is "losses are reported alike: $(<"$folder/err")" reports_of_each
advised=$(sed -nE 's/^record: --buffer ([0-9]+) would have held them$/\1/p' "$folder/err")
is "a buffer is advised: $(<"$folder/err")" test -n "$advised"
is "no instance stays" test -z "$(ls -d "$tracefs"/instances/histdesk.* 2>/dev/null)"
# How many events another run of the workload makes isn't known, so a much larger buffer than the advised one is tried.
"$tools/record" --buffer "$((16 * ${advised:-0}))" -o "$folder/whole" -- "${workload[@]}" 2>"$folder/err"
is "the advised buffer holds them, sixteen times: $(<"$folder/err")" grep -q '^record: [0-9]* events, 0 lost$' "$folder/err"
wanted=$(printf '%s\n' "$tracefs"/per_cpu/cpu*/ | sed -E 's|.*/cpu([0-9]+)/$|# CPU \1: 0 events overwritten|' | sort)
is "each CPU is said to have overwritten nothing" test "$(grep ' overwritten$' "$folder/whole" | sort)" == "$wanted"

python=$(python_with numpy) || python=python3
export PYTHONPATH=$tests/../python PYTHONDONTWRITEBYTECODE=1
"$python" -c 'import histdesk' 2>"$folder/said" || not_tried "the package: $(tail -n 1 "$folder/said")"
# Each CPU that has overwritten events, except for the one that begins first, has a hole before its first event.
cat >"$folder/holes.py" <<'END'
import re
import sys
import warnings

import histdesk

text = open(sys.argv[1], encoding="latin-1").read()
first, lost = {}, {int(cpu): int(count) for cpu, count in re.findall(r"^# CPU (\d+): (\d+) events overwritten$", text, re.M)}
for cpu, seconds, digits in re.findall(r"^(?!#).{16}-\d+ +\[(\d+)\] \S+ +(\d+)\.(\d{6}): ", text, re.M):
    first.setdefault(int(cpu), int(seconds + digits))
begun = min(first.values(), default=0)
wanted = sorted((cpu, first[cpu]) for cpu, count in lost.items() if count and cpu in first and first[cpu] > begun)
with warnings.catch_warnings(record=True) as warned:
    warnings.simplefilter("always")
    read = histdesk.read(sys.argv[1])
found = sorted((hole.cpu, hole.before) for hole in read.holes if hole.after is None)
assert found == wanted, (found, wanted, read.holes)
assert bool(read.warning) == any(lost.values()), read.warning
assert [str(one.message) for one in warned] == ([read.warning] if read.warning else []), warned
END
is "holes are where the text has them" "$python" "$folder/holes.py" "$folder/trace"
is "no holes are where nothing was lost" "$python" "$folder/holes.py" "$folder/whole"
"$python" -c 'import histdesk; histdesk.waits' 2>/dev/null || not_tried "waits: the package has none"
"$python" -c 'import numpy' 2>/dev/null || not_tried "waits: numpy is missing"
# A wait is doubtful exactly if it spans a hole, judged only by stamps; and no row's greatest wait is a doubtful one.
cat >"$folder/doubts.py" <<'END'
import sys
import warnings

import histdesk

warnings.simplefilter("ignore")
waits = histdesk.waits(sys.argv[1])
holes = [(hole.after if hole.after is not None else -1, hole.before or 2**63) for hole in histdesk.read(sys.argv[1]).holes]
doubtful = [any(wait.begin_stamp < before and after < wait.end_stamp for after, before in holes) for wait in waits.array]
assert doubtful == list(waits.array["doubtful"])
ends = {(wait.end_cpu, wait.end_line) for wait, is_doubtful in zip(waits.array, doubtful) if is_doubtful}
greatest = [row for row in waits.table("task") if row.max is not None]
assert not [row for row in greatest if (row.end_cpu, row.end_line) in ends]
sure = [int(wait.micros) for wait, is_doubtful in zip(waits.array, doubtful) if not is_doubtful]
assert max(sure, default=None) == max((row.max for row in greatest), default=None)
END
is "no doubtful wait is among the greatest ones" "$python" "$folder/doubts.py" "$folder/trace"
finish
