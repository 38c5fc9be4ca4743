#!/usr/bin/env bash
# edits.sh [EVENTS]: times 100,000 strikes and 100,000 inserts while so many events are held (1,000,000), with their lines of
# the script and of its output, against loading one event, in the same run.
# shellcheck source-path=SCRIPTDIR
set -euo pipefail

here=$(dirname -- "$(realpath -- "${BASH_SOURCE[0]}")")
. "$here/common.sh"
events=${1:-1000000}
edits=100000

make_trace "$events" >"$trace"
printf 'load @1\n' >"$folder/load"
python3 -B "$here/edits.py" "$trace" "$edits" "$folder"
warm

nothing=$(least_script nothing)
load=$(least_script load)
strikes=$(least_script strikes)
both=$(least_script both)
echo "$events events, $edits edits of each kind, the least of $times runs"
awk -v nothing="$nothing" -v load="$load" -v strikes="$strikes" -v both="$both" -v events="$events" -v edits="$edits" 'BEGIN {
    one = (load - nothing) / events
    printf "an event loaded   %8.2f us\n", one / 1e3
    printf "a strike          %8.2f us %8.1f times that\n", (strikes - load) / edits / 1e3, (strikes - load) / edits / one
    printf "an insert         %8.2f us %8.1f times that\n", (both - strikes) / edits / 1e3, (both - strikes) / edits / one
}'
