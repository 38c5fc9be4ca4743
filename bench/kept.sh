#!/usr/bin/env bash
# kept.sh [EVENTS..]: times an insert and a strike, each by itself and followed by `totals` or by `hist` of the reader, and the
# same answers of `tests/program/plaindesk`, which replays at each, in one run. So many events are held (10,000, 100,000 and
# 1,000,000), and a saver and a reader are attached. HISTDESK and PLAINDESK may name programs that are built already.
# shellcheck source-path=SCRIPTDIR
set -euo pipefail

here=$(dirname -- "$(realpath -- "${BASH_SOURCE[0]}")")
. "$here/common.sh"
plaindesk=${PLAINDESK:-$here/../tests/program/plaindesk}
take_large_pages
if (($# == 0)); then
    set -- 10000 100000 1000000
fi

# The least time of plaindesk with a script over the trace.
least_plain() {
    least "$plaindesk" "$folder/$1" "$trace"
}

# row EDIT: prints how long it takes by itself and with each answer.
row() {
    local alone with_totals with_hist
    alone=$(least_script "$1")
    with_totals=$(least_script "$1-totals")
    with_hist=$(least_script "$1-hist")
    awk -v edit="$1" -v alone=$((alone - pair)) -v total=$((with_totals - pair)) -v hist=$((with_hist - pair)) \
        -v edits="$edits" -v prints="$prints" -v t="$totals" -v h="$hist" 'BEGIN {
        printf "    %s %6.2f us, with totals %6.2f us (replayed: %d times that), with hist %7.1f us (%d times)\n",
            edit, alone / edits / 1e3, total / edits / 1e3, t / 3 / (total / edits), hist / prints / 1e3,
            h / 3 / (hist / prints)
    }'
}

if [[ -z ${PLAINDESK:-} ]]; then
    (cd -- "$here/../crates/askagain" && rt run -- rows </dev/null >"$folder/log" 2>&1)
fi
for events in "$@"; do
    make_trace "$events" >"$trace"
    read -r edits prints < <(python3 -B "$here/kept.py" "$folder" "$trace" 100000 200 "$saver" "$reader")
    warm
    pair=$(least_script pair)
    plain=$(least_plain pair)
    totals=$(($(least_plain totals) - plain))
    hist=$(($(least_plain hist) - plain))
    awk -v n="$events" -v t="$totals" -v h="$hist" 'BEGIN {
        printf "%8d events: replayed at each answer: totals %10.1f ms, hist %10.1f ms\n", n, t / 3e6, h / 3e6
    }'
    row insert
    row strike
done
