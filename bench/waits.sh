#!/usr/bin/env bash
# waits.sh [RECORDING [TRACE]]: times the waits of recordings: the engine by itself (waits.c), tools/waits, and the tools that
# stand on it, beside `wc -l` and what perf says of the same events, `perf sched latency` and `perf sched timehist -s`.
#
# First it does so over a synthetic trace of EVENTS events (1,000,000), then over a recording of perf. Without an argument, it
# records, as root, a machine that two benchmarks of perf keep busy. TRACE is what tools/from-perf makes of the recording; if
# it isn't given, it is made. If LONG is set, a synthetic trace of so many events is read in one part and in four at once.
#
# All commands over one trace run in turn, seven times or as often as TIMES says. For each, it prints the least time by
# the clock, the least time of processors, and the most memory that a process of it had.
# shellcheck source-path=SCRIPTDIR
set -euo pipefail

here=$(dirname -- "$(realpath -- "${BASH_SOURCE[0]}")")
TIMES=${TIMES:-7}
. "$here/common.sh"
. "$here/recordings.sh"
tools=$(realpath -- "$here/../tools")
library=$here/../crates/ft_c/out
# About four million events.
busy='perf bench sched messaging -l 2700; perf bench sched pipe -l 180000'
# How many events a slice has.
slice=20000

# row WHAT COMMAND..: adds a command to be timed.
row() {
    names+=("$1")
    commands+=("$(printf '%q ' "${@:2}")")
}

# Runs the commands in turn, and prints what each took; a command that fails is reported, with the last line of what it said.
measure() {
    local run at
    for ((run = 0; run < times; run++)); do
        for at in "${!names[@]}"; do
            [[ ! -e $folder/failed.$at ]] || continue
            if ! /usr/bin/time -a -f '%e %U %S %M' -o "$folder/took.$at" bash -c "exec ${commands[at]}" \
                >/dev/null 2>"$folder/err"; then
                tail -n 1 "$folder/err" >"$folder/failed.$at"
            fi
        done
    done
    printf '%-34s %9s %12s %7s\n' command 'clock, s' 'processor, s' MB
    for at in "${!names[@]}"; do
        if [[ -e $folder/failed.$at ]]; then
            printf '%-34s failed: %s\n' "${names[at]}" "$(<"$folder/failed.$at")"
        else
            awk -v name="${names[at]}" '
                NR == 1 || $1 < clock { clock = $1 }
                NR == 1 || $2 + $3 < own { own = $2 + $3 }
                $4 > memory { memory = $4 }
                END { printf "%-34s %9.2f %12.2f %7.1f\n", name, clock, own, memory / 1000 }' "$folder/took.$at"
        fi
    done
    rm -f -- "$folder"/took.* "$folder"/failed.*
    names=()
    commands=()
}

# stamp_of LINE: prints the stamp of the first event from a line of the trace on.
stamp_of() {
    tail -n "+$1" -- "$trace" | grep -m 1 -oE '[0-9]+\.[0-9]{6}: ' | tr -d ': '
}

# The commands over any trace.
rows_of_any() {
    row 'wc -l' wc -l "$trace"
    row 'the engine by itself' "$folder/engine" "$trace"
    row 'tools/waits' "$python" "$tools/waits" "$trace"
    row 'tools/summary' "$python" "$tools/summary" "$trace"
}

# The commands over a recording of perf, whose text is the trace.
rows_of_recording() {
    local lines middle
    lines=$(wc -l <"$trace")
    middle=$((lines / 2))
    row 'tools/from-perf' "$tools/from-perf" "$recording"
    rows_of_any
    row 'perf sched latency' perf sched latency -i "$recording"
    row 'perf sched timehist -s' perf sched timehist -s -i "$recording"
    if ((lines > 2 * slice)); then
        row "tools/waits, a slice of $slice" "$python" "$tools/waits" --from "$(stamp_of "$middle")" \
            --until "$(stamp_of $((middle + slice)))" "$trace"
    fi
    row 'tools/why, the worst wait' "$python" "$tools/why" "$trace"
    row 'tools/why, with its chain' "$python" "$tools/why" --chain "$trace"
    row 'tools/view --save' "$python" "$tools/view" --save "$folder/page.html" "$trace"
    row 'tools/diff --without' "$python" "$tools/diff" "$trace" --without 'sched_waking if common_pid == 0'
    row 'tools/export waits' "$python" "$tools/export" "$trace" waits
}

# Prints what a trace is, in a line.
tell() {
    local told
    told=$("$python" "$tools/waits" --by kind --json "$trace" 2>"$folder/err" |
        sed -nE '1s/.*"events": ([0-9]+),.*"waits": ([0-9]+),.*/\1 events, \2 waits/p')
    printf '\n%s: %s, %s MB; the least of %s runs in turn\n\n' "$1" "$told" "$(($(stat -c %s -- "$trace") / 1000000))" "$times"
}

python=python3
"$python" -c 'import numpy' 2>/dev/null || python=/usr/bin/python3
[[ -e $library/libhistdesk.a ]] || "$here/../build/build" library
cc -O2 -I "$here/../include" -o "$folder/engine" "$here/waits.c" "$library/libhistdesk.a" -lm -lpthread
names=()
commands=()

make_trace "${EVENTS:-1000000}" >"$trace"
tell synthetic
rows_of_any
if [[ -x $here/../crates/histdesk/out/histdesk ]]; then
    echo 'load @1' >"$folder/load"
    take_large_pages
    row 'histdesk, a load by itself' "$here/../crates/histdesk/out/histdesk" "$folder/load" "$trace"
fi
measure

if [[ -n ${LONG:-} ]]; then
    make_trace "$LONG" >"$trace"
    tell long
    rows_of_any
    row 'tools/waits --jobs 1' "$python" "$tools/waits" --jobs 1 "$trace"
    row 'tools/waits --jobs 4' "$python" "$tools/waits" --jobs 4 "$trace"
    measure
fi

recording=${1-}
if [[ -z $recording ]]; then
    recording=$folder/perf.data
    record_by_perf "$recording" sched_waking sched_wakeup sched_wakeup_new sched_switch sched_migrate_task
fi
if [[ -n ${2-} ]]; then
    trace=$2
else
    "$tools/from-perf" "$recording" >"$trace" 2>"$folder/err" || true
fi
tell "$(basename -- "$recording")"
rows_of_recording
measure
