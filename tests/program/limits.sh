#!/usr/bin/env bash
# limits.sh [HISTDESK [PLAINDESK [ASKAGAIN [HISTWATCH]]]]: tests files that are larger than HISTDESK takes, and desks that
# hold as much as they can, with PLAINDESK too. program.sh says more about these arguments.
set -uo pipefail

tests=$(dirname -- "$(dirname -- "$(realpath -- "${BASH_SOURCE[0]}")")")
. "$tests/counts.sh"
. "$tests/program/common.sh"

# full_desk PROGRAM..: tests a trace of one event more than a desk holds, and which edits a full desk takes. What may be
# refused for another reason is refused for that one.
full_desk() {
    local name program full=$folder/full
    mkdir -p -- "$full"/{one_more,edits}
    yes 'a-1 [000] 1.000000:' | head -n 1048577 >"$full/one_more/trace1"
    head -n 1048576 -- "$full/one_more/trace1" >"$full/edits/trace1"
    echo 'a-1 [001] 1.000000:' >"$full/edits/trace2"
    printf '# no event\n\n' >"$full/edits/trace3"
    echo 'load @1' >"$full/one_more/script"
    echo 'refused 7' >"$full/one_more/expected"
    printf '%s\n' 'load @1' 'insert a-1 [001] 1.000000:' 'insert a-1 [000] 1.000000:' 'insert # x' 'insert x' 'load @1' \
        'load @2' 'load @3' 'list 1' 'strike 0:1048576' 'load @2' 'insert a-1 [000] 1.000000:' 'unload 1' \
        'insert a-1 [000] 1.000000:' 'insert a-1 [000] 1.000000:' 'unload 0' 'load @2' >"$full/edits/script"
    printf '%s\n' 'loaded 1048576' 'refused 7' 'refused 7' 'refused 6' 'refused 3: line 1 fault 1' 'refused 4: cpu 0' \
        'refused 7' 'loaded 0' 'refused 5: cpu 1' 'struck 0:1048576' 'loaded 1' 'refused 7' 'unloaded 1' \
        'inserted 0:1048577' 'refused 7' 'unloaded 1048576' 'loaded 1' >"$full/edits/expected"
    for name in one_more edits; do
        echo 1 >"$full/$name/status"
        for program in "$@"; do
            row "$program" "$full/$name"
        done
        rm -- "$full/$name/trace1"
    done
}

gives endless_trace 2 "histdesk: cannot read /dev/zero" "$histdesk" "$folder/empty" /dev/zero
truncate -s 1073741825 "$folder/large"
gives large_trace 2 "histdesk: cannot read $folder/large" "$histdesk" "$folder/empty" "$folder/large"
full_desk "$histdesk" ${plaindesk:+"$plaindesk"}

finish
