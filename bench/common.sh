# shellcheck shell=bash disable=SC2034,SC2154 # what other scripts read and set
# common.sh: what the scripts of this folder share. Each of them sets `here`, this folder, and then reads it. It sets `folder`,
# a folder for this run, `trace`, a file in that, and `times`, how often each run is timed.

times=${TIMES:-5}
folder=$(mktemp -d)
trap 'rm -rf -- "$folder"' EXIT
trace=$folder/trace

# The program that is measured. Without the variable it is the launcher, which builds it if it is stale.
histdesk=${HISTDESK:-$here/../histdesk}

# Wakeup latencies: a waking saves its time, and the switch to its task reads it.
saver='sched_waking hist:keys=pid:ts0=common_timestamp.usecs'
# shellcheck disable=SC2016 # for the desk
reader='sched_switch hist:keys=next_pid:vals=$lat:lat=common_timestamp.usecs-$ts0'

# make_trace EVENTS [OPTION]..: prints a trace of so many events.
make_trace() {
    python3 "$here/make_trace.py" "$@"
}

# Sets `histdesk` to the program itself if it is the launcher, which looks for stale sources at each call.
take_program() {
    if [[ -z ${HISTDESK:-} ]]; then
        "$here/../build/build" histdesk
        histdesk=$here/../crates/histdesk/out/histdesk
    fi
}

# Asks the C library for large pages, as the launcher does.
take_large_pages() {
    export GLIBC_TUNABLES=${GLIBC_TUNABLES:+$GLIBC_TUNABLES:}glibc.malloc.hugetlb=1
}

# Has the launcher build the program if it is stale, which is not measured, and warms the trace's pages.
warm() {
    : >"$folder/nothing"
    "$histdesk" "$folder/nothing" "$trace"
}

# took COMMAND..: prints the time of one run, in nanoseconds. What the run prints is in FOLDER/out.
took() {
    local start
    start=$(date +%s%N)
    "$@" >"$folder/out"
    echo $(($(date +%s%N) - start))
}

# Prints the least of numbers, one per line.
least_number() {
    sort -n | head -n 1
}

# least COMMAND..: prints the least time of some runs, in nanoseconds.
least() {
    local run
    for ((run = 0; run < times; run++)); do
        took "$@"
    done | least_number
}

# least_script NAME: prints the same for histdesk with the script FOLDER/NAME over the trace.
least_script() {
    least "$histdesk" "$folder/$1" "$trace"
}
