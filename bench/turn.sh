#!/usr/bin/env bash
# turn.sh [RECORDING]..: times what makes a text of what was recorded: tools/record beside `cat` of the same trace, from-perf
# beside `perf script`, from-trace-cmd beside `trace-cmd report`, and these two also without what build/build compiles for them;
# and tools/waits of each recording as it is, beside `perf sched latency` and `trace-cmd report`.
# Without an argument, it first records, as root, a machine that two benchmarks of perf keep busy: by tracefs, by both tools, and
# by `perf sched record`.
#
# The commands over one recording run in turn, seven times or as often as TIMES says, and write into files. For each, it prints
# the least time by the clock, the least time of processors, and the ratio of the first to that of the command beside it. What
# FRONT holds is put before each: FRONT='chrt -r 1' on a machine that others keep busy.
# shellcheck source-path=SCRIPTDIR
set -euo pipefail

here=$(dirname -- "$(realpath -- "${BASH_SOURCE[0]}")")
TIMES=${TIMES:-7}
. "$here/common.sh"
. "$here/recordings.sh"
tools=$(realpath -- "$here/../tools")
events=(sched_waking sched_wakeup sched_wakeup_new sched_switch)
tracefs=/sys/kernel/tracing
instance=
recordings=("$@")
names=()
commands=()
python=python3
"$python" -c 'import numpy' 2>/dev/null || python=/usr/bin/python3

take_back() {
    [[ -z $instance ]] || rmdir -- "$instance"
    rm -rf -- "$folder"
}

# row WHAT COMMAND..: adds a command to be timed; the others are compared with the first one.
row() {
    names+=("$1")
    commands+=("$(printf '%q ' "${@:2}")")
}

# Runs the commands in turn, and prints what each took.
measure() {
    local run at first
    for ((run = 0; run < times; run++)); do
        for at in "${!names[@]}"; do
            /usr/bin/time -a -f '%e %U %S' -o "$folder/took.$at" bash -c "exec ${FRONT-} ${commands[at]}" >"$folder/out" 2>"$folder/err"
        done
    done
    first=$(cut -d ' ' -f 1 "$folder/took.0" | sort -n | head -n 1)
    for at in "${!names[@]}"; do
        awk -v name="${names[at]}" -v first="$first" '
            NR == 1 || $1 < clock { clock = $1 }
            NR == 1 || $2 + $3 < own { own = $2 + $3 }
            END { printf "%-44s %9.2f %12.2f %6.2f\n", name, clock, own, clock / first }' "$folder/took.$at"
    done
    rm -f -- "$folder"/took.*
    names=()
    commands=()
}

# tell WHAT EVENTS: prints what is measured next.
tell() {
    printf '\n%s: %d events; the least of %s runs in turn\n\n%-44s %9s %12s %6s\n' "$1" "$2" "$times" command 'clock, s' \
        'processor, s' ratio
}

# Measures reading the trace of an instance of tracefs, which stays while it is read again and again.
measure_record() {
    local event
    instance=$tracefs/instances/histdesk.$$
    mkdir -- "$instance"
    echo 131072 >"$instance/buffer_size_kb"
    for event in "${events[@]}"; do
        echo 1 >"$instance/events/sched/$event/enable"
    done
    bash -c 'perf bench sched messaging -l 1800; perf bench sched pipe -l 200000' >"$folder/out"
    echo 0 >"$instance/tracing_on"
    tell 'tools/record' "$(cat -- "$instance"/per_cpu/cpu*/stats | awk '/^entries:/ { all += $2 } END { print all }')"
    row "cat $tracefs/instances/NAME/trace" cat -- "$instance/trace"
    row 'what tools/record writes it by' env "PYTHONPATH=$tools/../python" python3 -m histdesk.cli.kernel_text record "$instance/trace"
    measure
}

# measure_turned SCRIPT RECORDING COMMAND..: measures a converter beside this command.
measure_turned() {
    tell "$1" "$("$tools/$1" "$2" 2>"$folder/err" | grep -vc '^#')"
    row "${*:3:2}" "${@:3}"
    row "tools/$1" "$tools/$1" "$2"
    row "tools/$1, nothing compiled" "$folder/slow/tools/$1" "$2"
    measure
}

# measure_asked RECORDING COMMAND..: measures the waits of a recording as it is, beside this command.
measure_asked() {
    tell "waits of $(basename -- "$1")" "$("$python" "$tools/waits" --json "$1" 2>"$folder/err" | sed -nE '1s/.*"events": ([0-9]+),.*/\1/p')"
    row "${*:2:3}" "${@:2}"
    row 'tools/waits' "$python" "$tools/waits" "$1"
    measure
}

trap take_back EXIT
mkdir -- "$folder/slow"
cp -r -- "$tools" "$tools/../python" "$folder/slow"
if (($# == 0)); then
    measure_record
    record_by_perf "$folder/perf.data" "${events[@]}"
    record_by_perf_sched "$folder/sched.data"
    recordings+=("$folder/perf.data" "$folder/sched.data")
    if trace-cmd record -b 65536 -o "$folder/trace.dat" "${events[@]/#/-e}" bash -c "$busy" >"$folder/out" 2>&1; then
        recordings+=("$folder/trace.dat")
    else
        echo "not tried: trace-cmd could not record: $(tail -n 1 "$folder/out")"
    fi
fi
for recording in "${recordings[@]}"; do
    if is_by_perf "$recording"; then
        measure_turned from-perf "$recording" perf script --ns -F comm,tid,cpu,time,event,trace -i "$recording"
        measure_asked "$recording" perf sched latency -i "$recording"
    else
        measure_turned from-trace-cmd "$recording" trace-cmd report -N -t -i "$recording"
        measure_asked "$recording" trace-cmd report -N -t -i "$recording"
    fi
done
