#!/usr/bin/env bash
# run.sh [EVENTS]: times histdesk on a trace of so many events (1,048,576, the most it holds), against
# `wc -l` on the same file in the same run.
# shellcheck source-path=SCRIPTDIR
set -euo pipefail

here=$(dirname -- "$(realpath -- "${BASH_SOURCE[0]}")")
. "$here/common.sh"
events=${1:-1048576}

row() {
    awk -v what="$1" -v took="$2" -v wc="$wc" 'BEGIN {
        printf "%-28s %9.1f ms %8.1f times wc -l\n", what, took / 1e6, took / wc
    }'
}

make_trace "$events" >"$trace"
printf 'load @1\n' >"$folder/load"
printf 'load @1\nattach sched_waking hist:keys=pid\nhist 1\n' >"$folder/hist"
printf 'load @1\nattach sched_waking hist:keys=pid if comm ~ "*r*k*" && prio < 130\nhist 1\n' >"$folder/filter"
printf 'load @1\nattach sched_waking hist:keys=comm:vals=prio\nhist 1\n' >"$folder/sum"
printf '%s\n' 'load @1' "attach $saver" "attach $reader" 'lat 2' >"$folder/pair"
warm

wc=$(least wc -l "$trace")
echo "$events events, $(stat -c %s "$trace") bytes, the least of $times runs"
row "wc -l" "$wc"
row "read the file alone" "$(least_script nothing)"
row "load" "$(least_script load)"
row "load, attach, hist" "$(least_script hist)"
row "the same with a filter" "$(least_script filter)"
row "a table by comm, with a sum" "$(least_script sum)"
row "wakeup latencies, listed" "$(least_script pair)"
