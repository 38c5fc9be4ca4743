#!/usr/bin/env bash
# c_library.sh [LIBRARY [HISTDESK]]: tests the C library, libhistdesk.so.0, by programs in C: the header, what the object
# exports and asks for, the rows and random scripts, line by line, with numbers held against texts and with growths of memory
# refused, a desk that is full, each growth of a session refused in turn, what is held of the heap once all events are struck,
# buffers of just their size, threads, waits, parts and lines (under valgrind if it is installed), and the example. Where
# HISTDESK is given, more random scripts are held against that program. Without a word, LIBRARY is the one that the variable
# HISTDESK_LIBRARY names, or the one built here. It prints what went wrong, and a last line with the counts.
# shellcheck disable=SC2154 # what counts.sh assigns
set -uo pipefail

tests=$(dirname -- "$(dirname -- "$(realpath -- "${BASH_SOURCE[0]}")")")
library=$(realpath -- "${1:-${HISTDESK_LIBRARY:-$tests/../crates/ft_c/out/libhistdesk.so.0}}")
histdesk=${2:+$(realpath -- "$2")}
include=$tests/../include
examples=$tests/../examples
strict=(-Wall -Wextra -Werror -pedantic "-I$include")
. "$tests/counts.sh"
. "$tests/commands.sh"

# compiles WHAT COMMAND..: the compiler takes it and says nothing.
compiles() {
    local told
    if told=$("${@:2}" 2>&1) && [[ -z $told ]]; then
        pass
    else
        fail "$1: not compiled: $told"
    fi
}

# program NAME SOURCE..: a program over the library, in $folder.
program() {
    compiles "$1" cc -std=c11 -O1 -g "${strict[@]}" -o "$folder/$1" "${@:2}" "$folder/libhistdesk.so.0" "-Wl,-rpath,$folder"
}

# row FOLDER COMMAND..: the command, given a row's script and traces, prints the row's whole output and ends with its status.
row() {
    local row=$1 number=1 traces=()
    while [[ -e $row/trace$number ]]; do
        traces+=("$row/trace$number")
        number=$((number + 1))
    done
    gives "row ${row##*/}, ${*: -1}" "$(<"$row/status")" "" "${@:2}" "$row/script" "${traces[@]}"
    prints "row ${row##*/}, ${*: -1}" "$row/expected"
}

# random_row NAME COMMANDS EVENTS SEED COMMAND..: a folder with a random script is made a row by the command, which is given
# the script and its traces: a plain model in Python, or a program.
random_row() {
    local row=$folder/rows/$1
    mkdir -p -- "$row"
    python3 "$tests/model/random_script.py" "$2" "$3" "$4" "$row"
    "${@:5}" "$row/script" "$row"/trace? >"$row/expected" </dev/null
    echo 0 >"$row/status"
    if grep -q '^refused ' "$row/expected"; then
        echo 1 >"$row/status"
    fi
}

# full_row: a row with a trace of one event more than a desk holds, and with edits of a desk that holds the most.
full_row() {
    local row=$folder/full
    mkdir -p -- "$row"
    yes 'a-1 [000] 1.000000:' | head -n 1048577 >"$row/trace1"
    head -n 1048576 -- "$row/trace1" >"$row/trace2"
    printf '%s\n' 'load @1' 'load @2' 'insert a-1 [001] 1.000000:' 'strike 0:1048576' 'insert a-1 [001] 1.000000:' \
        'insert a-1 [000] 1.000000:' 'unload 0' >"$row/script"
    printf '%s\n' 'refused 7' 'loaded 1048576' 'refused 7' 'struck 0:1048576' 'inserted 1:1' 'refused 7' \
        'unloaded 1048575' >"$row/expected"
    echo 1 >"$row/status"
}

# names OPTION: the names that the object defines for others, or asks others for.
names() {
    nm -D "$1" "$library" | awk -v OFS='\n' '$(NF - 1) != "w" { print $NF }' | sed 's/@.*//' | sort
}

# is_told WHAT WANT TOLD
is_told() {
    if [[ $3 == "$2" ]]; then
        pass
    else
        fail "$1: $3"
    fi
}

if [[ ! -f $library ]]; then
    echo "no library: $library"
    echo "0 passed, 1 failed"
    exit 1
fi
ln -s -- "$library" "$folder/libhistdesk.so.0"

# ---- The header and the object.

for standard in c99 c11 c17; do
    compiles "header, $standard" cc -xc "-std=$standard" "${strict[@]}" -fsyntax-only "$include/histdesk.h"
done
if command -v c++ >/dev/null; then
    compiles "header, C++" c++ -xc++ -std=c++17 "${strict[@]}" -fsyntax-only "$include/histdesk.h"
else
    skip "the header in C++, since there is no c++"
fi
declared=$(sed -n 's/^[a-z0-9_]* \(histdesk_[a-z_]*\)(.*/\1/p' "$include/histdesk.h" | sort)
is_told "exported names" "$declared" "$(names --defined-only)"
is_told "the node of these names" HISTDESK_0 "$(nm -D --defined-only "$library" | sed -n 's/.*@@//p' | sort -u)"
is_told "names asked for" "" "$(names --undefined-only | grep -vxE 'malloc|realloc|free|mem(move|cpy|set|cmp)')"
is_told "name of the object" libhistdesk.so.0 "$(readelf -d "$library" | sed -n 's/.*(SONAME).*\[\(.*\)\]/\1/p')"

# ---- Scripts.

program script "$tests"/library/c/{script,commands,bytes,whole,heap,numbers,numbers_events,numbers_edits}.c
for ((seed = 1; seed <= 10; seed++)); do
    random_row "mixed_$seed" 60 60 "$seed" python3 "$tests/model/model.py"
done
random_row mixed_1000 1000 600 1 python3 "$tests/model/model.py"
if [[ -n $histdesk ]]; then
    for ((seed = 11; seed <= 40; seed++)); do
        random_row "mixed_$seed" 300 200 "$seed" "$histdesk"
    done
fi
for one in "$tests"/rows/* "$folder"/rows/*; do
    row "$one" "$folder/script"
    row "$one" "$folder/script" --numbers
    row "$one" "$folder/script" --refusing
done
full_row
row "$folder/full" "$folder/script"

# ---- Growths that are refused, what is held of the heap, and buffers of just their size.

program fail "$tests"/library/c/{fail,heap}.c
holds "$folder/fail"
program freed "$tests"/library/c/{freed,heap}.c
holds "$folder/freed"
program exact "$tests/library/c/exact.c"
holds "$folder/exact"
program threads -pthread "$tests/library/c/threads.c"
holds "$folder/threads"
program stream -pthread "$tests"/library/c/{waits,heap}.c
holds "$folder/stream"
program parts -pthread "$tests"/library/c/{parts,heap}.c
holds "$folder/parts"
program lines "$tests"/library/c/{lines,heap}.c
holds "$folder/lines"
if command -v valgrind >/dev/null; then
    checked=(valgrind -q --error-exitcode=9 --leak-check=full --show-leak-kinds=all --errors-for-leak-kinds=all)
    gives "exact, under valgrind" 0 "" "${checked[@]}" "$folder/exact"
    program leaks "$tests"/library/c/{exact,leaks}.c
    gives "exact with nothing freed, under valgrind" 9 "" "${checked[@]}" --log-file=/dev/null "$folder/leaks"
    program leaks_inside "$tests"/library/c/{exact,leaks}.c -DFREES_ONLY_THE_DESK
    gives "exact with no content freed, under valgrind" 9 "" "${checked[@]}" --log-file=/dev/null "$folder/leaks_inside"
    program plain_stream -pthread "$tests/library/c/waits.c" -DHEAP_IS_PLAIN
    gives "waits, under valgrind" 0 "" "${checked[@]}" "$folder/plain_stream"
    program plain_parts -pthread "$tests/library/c/parts.c" -DHEAP_IS_PLAIN
    gives "parts, under valgrind" 0 "" "${checked[@]}" "$folder/plain_parts"
    program plain_lines "$tests/library/c/lines.c" -DHEAP_IS_PLAIN
    gives "lines, under valgrind" 0 "" "${checked[@]}" "$folder/plain_lines"
    gives "threads, under helgrind" 0 "" valgrind -q --tool=helgrind --error-exitcode=9 "$folder/threads"
    for one in one_latency each_edit_with_answers; do
        row "$tests/rows/$one" "${checked[@]}" "$folder/script" --numbers
    done
else
    skip "buffers under valgrind, which is not installed"
fi

# ---- The example.

program waits "$examples/c/waits.c"
gives waits 0 "" "$folder/waits" "$examples/wakeups.trace"
prints waits "$examples/c/waits.expected"
gives waits_torn 1 "waits: $examples/torn.trace: line 15: expected a timestamp SECONDS.MICROSECONDS: here, or the \
flags exceed 16 bytes" "$folder/waits" "$examples/torn.trace"
gives waits_gone 1 "$folder/gone: No such file or directory" "$folder/waits" "$folder/gone"

finish
