#!/usr/bin/env bash
# watch.sh [EVENTS]: times strikes of wakings by histwatch, which prints the rows that they change, against histdesk over the
# same scripts: once with a saver and a reader attached, and once also with a table of the events that the reader makes.
# shellcheck source-path=SCRIPTDIR
set -euo pipefail

here=$(dirname -- "$(realpath -- "${BASH_SOURCE[0]}")")
. "$here/common.sh"
histwatch=${HISTWATCH:-$here/../histwatch}
events=${1:-200000}
strikes=2000
# shellcheck disable=SC2016 # for the desk
made=':onmatch(sched.sched_waking).wakeup_latency($lat,next_pid,next_prio)'

# row NAME PROGRAM: prints how long a strike takes this program, with the triggers of FOLDER/NAME.
row() {
    local first all
    first=$(least "${!2}" "$folder/$1.first" "$trace")
    all=$(least "${!2}" "$folder/$1.strikes" "$trace")
    awk -v name="$1" -v program="$2" -v took=$((all - first)) -v strikes="$strikes" 'BEGIN {
        printf "%-5s %-10s %8.2f us a strike\n", name, program, took / strikes / 1e3
    }'
}

make_trace "$events" >"$trace"
python3 -B "$here/watch.py" "$trace" "$strikes" >"$folder/strikes"
printf '%s\n' 'load @1' "attach $saver" "attach $reader" >"$folder/pair"
printf '%s\n' 'load @1' "attach $saver" "attach $reader$made" 'attach wakeup_latency hist:keys=pid,lat:size=131072' \
    >"$folder/made"
for name in pair made; do
    cat -- "$folder/$name" "$folder/strikes" >"$folder/$name.strikes"
    # The first look at the rows belongs to no edit.
    (cat -- "$folder/$name" && head -n 1 -- "$folder/strikes") >"$folder/$name.first"
done
warm
"$histwatch" "$folder/nothing" "$trace"

(cat -- "$folder/made" && echo 'totals 3') >"$folder/totals"
totals=$("$histdesk" "$folder/totals" "$trace" | tail -n 1)
echo "$events events, $strikes strikes, the least of $times runs; made events: $totals"
for name in pair made; do
    row "$name" histdesk
    row "$name" histwatch
done
