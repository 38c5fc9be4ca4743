# shellcheck shell=bash disable=SC2154 # what common.sh sets
# recordings.sh: what turn.sh and waits.sh share, the benches over recordings. They read it after common.sh.

# What keeps a machine busy while it is recorded.
busy='perf bench sched messaging -l 900; perf bench sched pipe -l 60000'

# record_by_perf FILE EVENT..: records these events of the whole machine, as root.
record_by_perf() {
    local events=("${@:2}")
    perf record -q -a -m 16M -o "$1" "${events[@]/#/-esched:}" bash -c "$busy" >"$folder/out"
}

# record_by_perf_sched FILE: records the same by `perf sched record`, with events that say how long tasks have run.
record_by_perf_sched() {
    perf sched record -m 64M -o "$1" -- bash -c "$busy" >"$folder/out" 2>&1
}

# Whether perf made a recording.
is_by_perf() {
    [[ $(head -c 8 -- "$1") == PERFILE2 ]]
}
