# shellcheck shell=bash disable=SC2154,SC2034 # what counts.sh and the parts assign, and what the parts read
# What program.sh and its parts, program/*.sh, test with: their arguments, which are those of program.sh, and checks of what a
# program does. They read this after counts.sh. `tests` is the folder of the tests.

launcher=$(realpath -- "$tests/../histdesk")
histdesk=$(realpath -- "${1:-$launcher}")
plaindesk=${2:+$(realpath -- "$2")}
askagain=${3:+$(realpath -- "$3")}
histwatch=${4:+$(realpath -- "$4")}
rows=("$tests"/rows/*)
examples=$tests/../examples

. "$tests/commands.sh"

# row PROGRAM FOLDER: checks that the program prints the row's whole output, ends with its status and says nothing else.
row() {
    local number=1 status traces=()
    while [[ -e $2/trace$number ]]; do
        traces+=("$2/trace$number")
        number=$((number + 1))
    done
    timeout "$limit" "$1" "$2/script" "${traces[@]}" >"$folder/out" 2>"$folder/err" </dev/null
    status=$?
    if [[ $status != "$(<"$2/status")" || -s $folder/err ]]; then
        fail "row ${2##*/}, ${1##*/}: status $status, $(<"$folder/err")"
    elif cmp -s -- "$folder/out" "$2/expected"; then
        pass
    else
        fail "row ${2##*/}, ${1##*/}: other output"
    fi
}

# mixed_row NAME COMMANDS EVENTS SEED: makes a row of a random script of edits and answers, by a plain model in Python.
mixed_row() {
    local row=$folder/$1
    mkdir -p -- "$row"
    python3 "$tests/model/random_script.py" "$2" "$3" "$4" "$row"
    python3 "$tests/model/model.py" "$row/script" "$row"/trace? >"$row/expected"
    echo 0 >"$row/status"
    if grep -q '^refused ' "$row/expected"; then
        echo 1 >"$row/status"
    fi
}

# short_rows: makes ten short ones.
short_rows() {
    local seed
    for ((seed = 1; seed <= 10; seed++)); do
        mixed_row "short/mixed_$seed" 60 60 "$seed"
    done
}

# refused SCRIPT PROGRAM ROW..: has the script refuse growths of the program's memory, in each row. Each row is
# a test.
refused() {
    local library=$folder/refuse_growth.so
    if ! cc -O2 -shared -fPIC -o "$library" "$tests/program/refuse_growth.c" -ldl; then
        fail "growths refused: not compiled"
        return
    fi
    holds "$tests/program/$1" "$2" "$library" "${@:3}"
}

# growths PROGRAM ROW..: checks that the program, with each growth of its memory refused in turn, prints a row's whole
# output, or that of its first commands and that memory ran out.
growths() {
    refused growths.py "$@"
}

# built NAME: prints where the program of that crate is, if it is built.
built() {
    local program=$tests/../crates/$1/out/$1
    if [[ -x $program ]]; then
        realpath -- "$program"
    fi
}

if (($# == 0)); then
    askagain=$(built askagain)
    plaindesk=${askagain:+$tests/program/plaindesk}
    histwatch=$(built histwatch)
fi
# The launcher builds the program if it is stale, for which there is no time limit.
if ! "$histdesk" - </dev/null >/dev/null; then
    echo "not run: $histdesk"
    echo "0 passed, 1 failed"
    exit 1
fi
# The launcher itself is a script that bash runs, and growths of bash's memory are not those of the program.
program=$histdesk
if [[ $histdesk == "$launcher" ]]; then
    program=$(built histdesk)
fi
: >"$folder/empty"
printf 'load @1\n' >"$folder/load"
