# shellcheck shell=bash disable=SC2154 # what counts.sh and its readers assign
# Checks of a command's status and output, for tests of programs and of the library, which read this after counts.sh.

# gives WHAT STATUS ERROR COMMAND..: checks the command's status, and all that it says on standard error; for the launcher,
# which says more after the program's line, only the first line.
gives() {
    local what=$1 want=$2 error=$3 status told
    shift 3
    timeout "$limit" "$@" >"$folder/out" 2>"$folder/err" </dev/null
    status=$?
    told=$(<"$folder/err")
    if [[ -n ${launcher-} && $histdesk == "$launcher" ]]; then
        told=${told%%$'\n'*}
    fi
    if [[ $status == "$want" && $told == "$error" ]]; then
        pass
    else
        fail "$what: status $status, $told"
    fi
}

# prints WHAT FILE: checks that the last command's output is that file.
prints() {
    if cmp -s -- "$folder/out" "$2"; then
        pass
    else
        fail "$1: other output"
    fi
}
