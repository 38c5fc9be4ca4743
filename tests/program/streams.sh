#!/usr/bin/env bash
# streams.sh [HISTDESK [PLAINDESK [ASKAGAIN [HISTWATCH]]]]: tests what HISTDESK does if the disk is full, and that a
# script that is typed is answered as it comes. program.sh says more about these arguments.
set -uo pipefail

tests=$(dirname -- "$(dirname -- "$(realpath -- "${BASH_SOURCE[0]}")")")
. "$tests/counts.sh"
. "$tests/program/common.sh"

# comes FILE LINE: succeeds if the file holds only that line, now or some seconds later.
comes() {
    local end=$((SECONDS + 10))
    until [[ $(<"$1") == "$2" ]]; do
        ((SECONDS < end)) || return 1
        sleep 0.02
    done
}

# Whoever types a script sees a command's output before typing the next one, and the script's end ends the program.
types() {
    local run status
    mkfifo "$folder/typed"
    : >"$folder/seen"
    timeout "$limit" "$histdesk" - <"$folder/typed" >"$folder/seen" &
    run=$!
    # It is open for reading too, so that no writing ends this script if the program has ended.
    exec 3<>"$folder/typed"
    echo 'hist 1' >&3
    if comes "$folder/seen" "refused 10"; then
        pass
    else
        fail "typed: not seen"
    fi
    exec 3>&-
    wait "$run"
    status=$?
    if [[ $status == 1 ]]; then
        pass
    else
        fail "typed: status $status"
    fi
}

gives full_disk 2 "histdesk: write failed" bash -c 'exec "$@" >/dev/full' - "$histdesk" "$folder/load"
types

finish
