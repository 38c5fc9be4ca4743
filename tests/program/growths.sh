#!/usr/bin/env bash
# growths.sh [HISTDESK [PLAINDESK [ASKAGAIN [HISTWATCH]]]]: has growths of HISTDESK's memory refused, in each row; ASKAGAIN
# asks a second time for what found no memory, in some rows. program.sh says more about these arguments.
set -uo pipefail

tests=$(dirname -- "$(dirname -- "$(realpath -- "${BASH_SOURCE[0]}")")")
. "$tests/counts.sh"
. "$tests/program/common.sh"

# asks_again PROGRAM NAME..: checks that a desk that is asked a second time for what found no memory does what the rows
# of these names say.
asks_again() {
    local names=("${@:2}")
    refused asked_again.py "$1" "${names[@]/#/$tests/rows/}"
}

short_rows
growths "$program" "${rows[@]}" "$folder"/short/*
if [[ -n $askagain ]]; then
    asks_again "$askagain" one_latency full_table_and_early_insert dropped_saver_comes_in \
        dropped_reading_still_pairs strikes_and_removes each_edit_with_answers edits_in_a_row \
        latencies_by_powers_of_two made_events_come_and_go
fi

finish
