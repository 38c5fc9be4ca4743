#!/usr/bin/env bash
# examples.sh [HISTDESK [PLAINDESK [ASKAGAIN [HISTWATCH]]]]: tests what HISTDESK prints for the examples. program.sh says
# more about these arguments.
set -uo pipefail

tests=$(dirname -- "$(dirname -- "$(realpath -- "${BASH_SOURCE[0]}")")")
. "$tests/counts.sh"
. "$tests/program/common.sh"

# example NAME STATUS TRACE..: runs the script of that name over these traces, and checks its status and output.
example() {
    gives "${1//-/_}" "$2" "" "$histdesk" "$examples/$1.script" "${@:3}"
    prints "${1//-/_}" "$examples/$1.expected"
}

example two-wakings 0 "$examples/two-wakings.trace"
example who-wakes 0 "$examples/who-wakes.trace"
example filters 0 "$examples/who-wakes.trace"
example wakeups 0 "$examples/wakeups.trace"
example latencies 0 "$examples/wakeups.trace"
example edits 0 "$examples/wakeups.trace"
example full-table 0 "$examples/full-table.trace"
example refusals 1 "$examples/wakeups.trace" "$examples/torn.trace"

finish
