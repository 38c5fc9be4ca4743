#!/usr/bin/env bash
# rows.sh [HISTDESK [PLAINDESK [ASKAGAIN [HISTWATCH]]]]: runs the rows of tests/rows, and random ones, which a plain model in
# Python answers, with HISTDESK and PLAINDESK, and in memory with ASKAGAIN. program.sh says more about these arguments.
#
# A row is a folder: a script, its traces, its whole output and its exit status.
set -uo pipefail

tests=$(dirname -- "$(dirname -- "$(realpath -- "${BASH_SOURCE[0]}")")")
. "$tests/counts.sh"
. "$tests/program/common.sh"

# crowded_row NAME EDITS SEED: makes a row of edits over tables that are full, by the plain model.
crowded_row() {
    echo "$1: $(python3 "$tests/model/crowded_script.py" "$2" "$3" "$folder/$1")"
}

# checks PROGRAM ROW..: checks that the program says that all of these rows hold.
checks() {
    local told status count=$(($# - 1))
    told=$(timeout "$limit" "$1" rows "${@:2}" 2>&1 </dev/null)
    status=$?
    if [[ $status == 0 && ${told##*$'\n'} == "$count of $count rows hold" ]]; then
        pass
    else
        fail "rows in memory: status $status, $told"
    fi
}

short_rows
mixed_row long/mixed_1000_1 1000 600 1
mixed_row long/mixed_1000_2 1000 600 2
crowded_row long/crowded 1000 1
all=("${rows[@]}" "$folder"/{short,long}/*)
for one in "${all[@]}"; do
    row "$histdesk" "$one"
    if [[ -n $plaindesk ]]; then
        row "$plaindesk" "$one"
    fi
done
if [[ -n $askagain ]]; then
    checks "$askagain" "${all[@]}"
fi

finish
