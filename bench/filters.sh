#!/usr/bin/env bash
# filters.sh [EVENTS]: times giving another filter to a trigger without a variable, to a reader and to its saver, against
# attaching only that trigger with that filter (the saver: with its reader), in one run. So many events are held
# (1,000,000), with eight triggers on all four events, these three among them.
# shellcheck source-path=SCRIPTDIR
set -euo pipefail

here=$(dirname -- "$(realpath -- "${BASH_SOURCE[0]}")")
. "$here/common.sh"
events=${1:-1000000}

plain='sched_waking hist:keys=pid'
triggers=(
    "$saver" "$reader" "$plain"
    'sched_wakeup hist:keys=pid'
    'sched_wakeup_new hist:keys=pid'
    'sched_switch hist:keys=next_pid'
    'sched_switch hist:keys=prev_prio'
    'sched_wakeup hist:keys=prio'
)
# All events pass it, so there are as many hits to count as without it.
filter='if common_pid >= 0'
saver_id=1
reader_id=2
plain_id=3

# script NAME TRIGGER..: writes a script that loads the trace and attaches these triggers.
script() {
    printf 'load @1\n' >"$folder/$1"
    (($# == 1)) || printf 'attach %s\n' "${@:2}" >>"$folder/$1"
}

row() {
    awk -v what="$1" -v took="$2" -v attached="$3" 'BEGIN {
        printf "%-34s %9.1f ms %6.2f times attaching\n", what, took / 1e6, took / attached
    }'
}

make_trace "$events" >"$trace"
script load
script plain "$plain $filter"
script saver "$saver"
script reader "$saver" "$reader $filter"
script pair "$saver $filter" "$reader"
script all "${triggers[@]}"
for id in "$plain_id" "$reader_id" "$saver_id"; do
    { cat -- "$folder/all" && printf 'filter %s %s\n' "$id" "$filter"; } >"$folder/filter-$id"
done
warm

load=$(least_script load)
one=$(($(least_script plain) - load))
saves=$(least_script saver)
read_alone=$(($(least_script reader) - saves))
pair=$(($(least_script pair) - load))
all=$(least_script all)
echo "$events events, eight triggers, the least of $times runs"
row "attach one without a variable" "$one" "$one"
row "its filter" "$(($(least_script "filter-$plain_id") - all))" "$one"
row "the reader's filter" "$(($(least_script "filter-$reader_id") - all))" "$read_alone"
row "the saver's filter, with its reader" "$(($(least_script "filter-$saver_id") - all))" "$pair"
