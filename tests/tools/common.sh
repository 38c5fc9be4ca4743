# shellcheck shell=bash disable=SC2154 # what counts.sh assigns
# What the scripts of this folder test with: checks, and programs that stand in for others. They read this after counts.sh.
# HISTDESK is the desk.

# gives WHAT STATUS ERROR COMMAND..: checks the command's status, and that a pattern matches all that it says on standard error.
gives() {
    local what=$1 want=$2 error=$3 status errors
    shift 3
    timeout "$limit" "$@" >"$folder/out" 2>"$folder/err"
    status=$?
    errors=$(<"$folder/err")
    # shellcheck disable=SC2053 # it is a pattern
    if [[ $status == "$want" && $errors == $error ]]; then
        pass
    else
        fail "$what: status $status, $errors"
    fi
}

# prints WHAT TEXT: checks that the last command printed that text and an end of line, or nothing if the text is empty.
prints() {
    if [[ $(<"$folder/out") == "$2" ]]; then
        pass
    else
        fail "$1: other output: $(<"$folder/out")"
    fi
}

# has WHAT FILE PATTERN..: checks that each pattern matches a line of the file.
has() {
    local pattern
    for pattern in "${@:3}"; do
        if grep -qx -- "$pattern" "$2"; then
            pass
        else
            fail "$1: no line $pattern"
        fi
    done
}

# script NAME LINE..: makes a program of that name from these lines of bash.
script() {
    printf '%s\n' '#!/usr/bin/env bash' "${@:2}" >"$folder/bin/$1"
    chmod +x "$folder/bin/$1"
}

# loads WHAT STATUS ERROR TEXT COMMAND..: checks the command's status and standard error, and that the desk, given its output,
# lists the lanes of CPUs 0 to 3 as that text.
loads() {
    gives "${@:1:3}" "${@:5}"
    mv -- "$folder/out" "$folder/trace"
    printf '%s\n' 'insert a-1 [000] 0.000000:' 'strike 0:1' 'unload 0' 'load @1' 'list 0' 'list 1' 'list 2' 'list 3' \
        >"$folder/lanes"
    "$HISTDESK" "$folder/lanes" "$folder/trace" </dev/null 2>&1 | tail -n +4 >"$folder/out"
    prints "$1, loaded" "$4"
}
