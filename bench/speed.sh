#!/usr/bin/env bash
# speed.sh [EVENTS]: whole runs of histdesk beside a plain program in Rust (plain.rs), which reads the same trace, replays it
# once and keeps nothing for edits: a load, a table, the totals of wakeup latencies. Both print the same bytes, which is
# tested. They and `wc -l` on the trace run in turn, five times each or as often as TIMES says. What counts is the least time
# of a processor, the program's and the system's for it: each has one thread, and other work beside it says little there.
# shellcheck source-path=SCRIPTDIR
set -euo pipefail

here=$(dirname -- "$(realpath -- "${BASH_SOURCE[0]}")")
. "$here/common.sh"
events=${1:-1000000}
export LC_ALL=C
take_large_pages
take_program

# Runs a command: appends its time in milliseconds and its most memory in KB to a file of that name.
run() {
    local name=$1 TIMEFORMAT='%3U %3S'
    shift
    { time /usr/bin/time -f %M -o "$folder/memory" "$@" >"$folder/$name.out"; } 2>"$folder/took"
    awk '{ print ($1 + $2) * 1000 }' "$folder/took" | paste -d ' ' - "$folder/memory" >>"$folder/$name.runs"
}

# Prints the least time of a command, and the most memory in that run.
least_run() {
    least_number <"$folder/$1.runs"
}

make_trace "$events" >"$trace"
rustc --edition 2021 -C opt-level=3 -o "$folder/plain" "$here/plain.rs"
printf '%s\n' 'load @1' >"$folder/load"
printf '%s\n' 'load @1' 'attach sched_waking hist:keys=pid' 'hist 1' >"$folder/table"
printf '%s\n' 'load @1' "attach $saver" "attach $reader" 'totals 2' >"$folder/pairs"
warm

for ((i = 0; i < times; i++)); do
    run wc wc -l "$trace"
    for what in load table pairs; do
        run "plain-$what" "$folder/plain" "$what" "$trace"
        run "desk-$what" "$histdesk" "$folder/$what" "$trace"
        cmp -- "$folder/plain-$what.out" "$folder/desk-$what.out"
    done
done

wc=$(least_run wc)
echo "$events events, $(stat -c %s "$trace") bytes, the least of $times runs in turn; wc -l takes ${wc% *} ms"
printf '%-8s %10s %10s %7s %11s %11s %10s %10s %7s\n' work 'plain, ms' 'desk, ms' times 'plain / wc' 'desk / wc' 'plain, MB' \
    'desk, MB' times
for what in load table pairs; do
    echo "$what $wc $(least_run "plain-$what") $(least_run "desk-$what")" | awk '{
        printf "%-8s %10.0f %10.0f %7.2f %11.1f %11.1f %10.0f %10.0f %7.2f\n",
            $1, $4, $6, $6 / $4, $4 / $2, $6 / $2, $5 / 1024, $7 / 1024, $7 / $5 }'
done
