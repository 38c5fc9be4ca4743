#!/usr/bin/env bash
# changes.sh [HISTDESK [PLAINDESK [ASKAGAIN [HISTWATCH]]]]: tests the rows that edits name, by ASKAGAIN, and those that
# HISTWATCH prints as changed, beside the tables that HISTDESK prints. program.sh says more about these arguments.
set -uo pipefail

tests=$(dirname -- "$(dirname -- "$(realpath -- "${BASH_SOURCE[0]}")")")
. "$tests/counts.sh"
. "$tests/program/common.sh"

# watched_row NAME SCRIPT TRACE EXPECTED: makes a row, which is a folder, of these.
watched_row() {
    local row=$folder/watched/$1
    mkdir -p -- "$row"
    cp -- "$2" "$row/script"
    cp -- "$3" "$row/trace1"
    cp -- "$4" "$row/expected"
    echo 0 >"$row/status"
}

# watches HISTWATCH: checks what it prints for its examples, for arguments that are refused and for random edits, and that it
# ends cleanly if a growth of memory is refused.
watches() {
    gives watched 0 "" "$1" "$examples/changes.script" "$examples/wakeups.trace"
    prints watched "$examples/changes.expected"
    gives struck 0 "" "$1" "$examples/strike.script" "$examples/wakeups.trace"
    prints struck "$examples/strike.expected"
    gives watched_words 2 "histwatch: bad words" "$1" --help
    gives watched_trace 2 "histwatch: cannot read $folder/gone" "$1" "$folder/empty" "$folder/gone"
    gives watched_disk 2 "histwatch: write failed" bash -c 'exec "$@" >/dev/full' - "$1" "$folder/load"
    holds "$tests/program/watched.py" "$program" "$1" ${askagain:+"$askagain"}
    watched_row changes "$examples/changes.script" "$examples/wakeups.trace" "$examples/changes.expected"
    watched_row one_latency "$tests"/../crates/histwatch/{data/script,data/trace1,stdout}
    growths "$1" "$folder"/watched/*
}

# The rows that each edit of one event names are those that differ, and few.
if [[ -n $askagain ]]; then
    holds "$tests/program/reports.py" "$askagain"
fi
if [[ -n $histwatch ]]; then
    watches "$histwatch"
fi

finish
