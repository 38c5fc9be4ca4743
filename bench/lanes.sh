#!/usr/bin/env bash
# lanes.sh [EVENTS]: times the unloading and the loading of lanes with a hundredth of the events each, against building all
# tables anew, in one run. So many events are held (900,000), with eight triggers on all four events, two of them a saver
# and a reader. What reading the lines of the lanes takes is subtracted.
# shellcheck source-path=SCRIPTDIR
set -euo pipefail

here=$(dirname -- "$(realpath -- "${BASH_SOURCE[0]}")")
. "$here/common.sh"
events=${1:-900000}
lanes=5
take_large_pages

attach() {
    printf 'attach %s\n' "$saver" "$reader" 'sched_waking hist:keys=comm:vals=prio' 'sched_wakeup hist:keys=target_cpu' \
        'sched_wakeup hist:keys=comm,prio' 'sched_wakeup_new hist:keys=pid' \
        'sched_switch hist:keys=prev_state' 'sched_switch hist:keys=next_prio.log2'
}
load() {
    for ((n = 0; n < lanes; n++)); do
        echo "load @$((2 + n))"
    done
}
unload() {
    for ((n = 0; n < lanes; n++)); do
        echo "unload $((8 + n))"
    done
}

# least_of PART..: prints the least time with a script that loads the first trace and does these.
least_of() {
    local part
    {
        echo 'load @1'
        for part in "$@"; do "$part"; done
    } >"$folder/script"
    least "$histdesk" "$folder/script" "$trace" "$folder"/lane?
}

# The trace of eight CPUs, and those of CPUs 8 and on with a hundredth of the events each, in the same seconds.
make_trace "$events" >"$trace"
for ((n = 0; n < lanes; n++)); do
    make_trace $((events / 100)) --cpus 1 --seed "$n" |
        sed -E "s/^(.*)\[000\]/\1[$(printf %03d $((8 + n)))]/" >"$folder/lane$n"
done
warm
first=$(least_of)
all=$(least_of load)
bare=$(least_of load unload)
held=$(least_of load attach)
unloaded=$(least_of load attach unload)
few=$(least_of attach)
loaded=$(least_of attach load)
awk -v first="$first" -v all="$all" -v bare="$bare" -v held="$held" -v unloaded="$unloaded" -v few="$few" \
    -v loaded="$loaded" -v lanes="$lanes" -v events="$events" 'BEGIN {
    build = held - all
    out = ((unloaded - held) - (bare - all)) / lanes
    into = ((loaded - few) - (all - first)) / lanes
    printf "%d events and %d lanes of a hundredth, the least of runs one after the other\n", events, lanes
    printf "%-28s %8.1f ms\n", "all tables built", build / 1e6
    printf "%-28s %8.1f ms, one of %.1f of building\n", "a lane unloaded", out / 1e6, build / out
    printf "%-28s %8.1f ms, one of %.1f of building\n", "a lane loaded", into / 1e6, build / into
}'
