#!/usr/bin/env bash
# lines.sh [BYTES]: prints what hostile lines of so many bytes (4,096) cost against plain ones, per byte. A
# trace of one line, which has a fault at its end, is loaded and refused 100 times in one run under
# valgrind, which counts instructions; what a load of a line of one byte takes is subtracted.
# shellcheck source-path=SCRIPTDIR
set -euo pipefail

here=$(dirname -- "$(realpath -- "${BASH_SOURCE[0]}")")
. "$here/common.sh"
length=${1:-4096}
loads=100

# Prints the instructions of a load of the trace.
each() {
    local count
    valgrind --tool=callgrind --callgrind-out-file=/dev/null "$histdesk" "$folder/loads" "$trace" \
        >"$folder/out" 2>"$folder/err" || (($? == 1))
    count=$(sed -n 's/,//g; s/.*refs: *//p' "$folder/err")
    echo $((count / loads))
}

# line WHAT FRONT PIECE BACK: the row of a line of the length: FRONT, as much of PIECE as there is room for, and BACK.
line() {
    python3 "$here/lines.py" "$length" "${@:2}" >"$trace"
    row "$1"
}

# row WHAT: prints the row of the trace's line, and sets `plain` to the instructions per byte of the first one.
row() {
    local bytes count
    bytes=$(($(stat -c %s "$trace") - 1))
    count=$(($(each) - refused))
    plain=${plain:-$(awk -v count="$count" -v bytes="$bytes" 'BEGIN { print count / bytes }')}
    awk -v what="$1" -v bytes="$bytes" -v count="$count" -v plain="$plain" 'BEGIN {
        printf "%-34s %5d bytes %7d instructions %6.1f a byte %5.2f times a plain one\n",
            what, bytes, count, count / bytes, count / bytes / plain }'
}

take_program
for ((i = 0; i < loads; i++)); do
    echo 'load @1'
done >"$folder/loads"
echo x >"$trace"
refused=$(each)
plain=

common='            bash-1994    [003] d.h4.  6012.000176: '
switch='sched_switch: prev_comm=bash prev_pid=1994 prev_prio=120 prev_state=S ==> next_comm='
printf '%ssched_waking: comm=kworker/3:2 pid=7105 prio=120 target_cpu=2147483648\n' "$common" >"$trace"
row "a waking, its last number too great"
printf '%s%sswapper/3 next_pid=0 next_prio=2147483648\n' "$common" "$switch" >"$trace"
row "a switch, its last number too great"
line '"-1 "' "" "-1 " ""
line '"[0] "' "" "[0] " ""
line '"-1 ("' "" "-1 (" ""
line '"-1 (-1-1"' "" "-1 (-1-1" ""
line "spaces" "" " " "x"
line "digits after a dash" "a-" "1" ""
line "arrows" "a-1 [000] 1.000000: ${switch}" " ==> next_comm=" "c next_pid=3 next_prio=4"
line "arrows without their end" "a-1 [000] 1.000000: ${switch}" " ==> next_comm" " next_pid=3 next_prio=4"
line "parts in a name" "a-1 [000] 1.000000: sched_waking: comm=" " pid=1 prio=1 success=1" " target_cpu=1"
