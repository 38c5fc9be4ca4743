#!/usr/bin/env bash
# record [OPTION].. SECONDS | record [OPTION].. -- COMMAND..: records the scheduler's four events and writes the text of the
# kernel's trace. The tool reads this file, so that the usage has the tool's own name.
set -uo pipefail

called=${0##*/}
[[ $called == histdesk-record ]] || called=tools/record
# shellcheck disable=SC2016 # the backquotes are the text's
usage="usage: $called [OPTION].. SECONDS >my.trace
       $called [OPTION].. -- COMMAND [ARGUMENT].. >my.trace"'

Records sched_waking, sched_wakeup, sched_wakeup_new and sched_switch on all CPUs for SECONDS (fractions such as 0.5 are
allowed), or while COMMAND runs, and writes the text of the trace, which `load` reads. Ctrl-C ends the recording, and
what was recorded is written, and after it how many events each CPU has overwritten. Standard error reports how many
events there are, which CPUs lost events, and which buffer size would have held them. It needs root. It records in its
own tracefs instance, instances/histdesk.PID, so it does not disturb other tracing. When it ends, it removes the
instance with all its settings. After kill -9, it cannot: remove the instance by hand, with rmdir
/sys/kernel/tracing/instances/histdesk.*

  -o FILE           write the trace to FILE; without it, the output of COMMAND goes to standard error
  --buffer KIB      the buffer size per CPU, in KiB (16384); give more if events are lost
  --cpu CPUS        record only on these CPUs, such as 0,2,4-7
  --events NAMES    record these events instead, such as sched_waking,sched_switch or irq:irq_handler_entry
  --tracefs FOLDER  where tracefs is mounted (/sys/kernel/tracing)

If the kernel has not kept the name of a task, the name is `<...>`, as in every trace. If python3 is installed, bytes of a
name that would mislead the desk, such as a line break, are replaced with a ?. The status is 0, or 1 if nothing was
recorded, or 2 if the arguments are wrong. The status of COMMAND is reported on standard error.'

here=$(dirname -- "$(realpath -- "${BASH_SOURCE[0]}")")
events=sched_waking,sched_wakeup,sched_wakeup_new,sched_switch
# The options of an instance on which the form of the text depends. A new instance has the settings of the machine's own
# tracing, so each of them is set. Not every kernel has all of them.
on=(context-info overwrite record-cmd irq-info)
off=(latency-format raw hex bin verbose fields stacktrace userstacktrace record-tgid)

tracefs=/sys/kernel/tracing
buffer=16384
cpus=
output=
instance=
child=

stop() {
    printf 'record: %s\n' "$2" >&2
    exit "$1"
}

# set_to VALUE FILE: changes a setting of the instance.
set_to() {
    printf '%s\n' "$1" 2>/dev/null >"$instance/$2" || stop 1 "cannot write $1 to $instance/$2"
}

# Removes the instance, and with it its buffers and settings. A reader that has just ended may hold it for a moment.
remove_instance() {
    trap '' INT TERM HUP
    if [[ -n $child ]]; then
        kill "$child" 2>/dev/null
        wait "$child" 2>/dev/null
    fi
    [[ -n $instance && -d $instance ]] || return
    { echo 0 >"$instance/tracing_on"; } 2>/dev/null
    for _ in 1 2 3 4 5; do
        rmdir -- "$instance" 2>/dev/null && return
        sleep 0.1
    done
    printf 'record: could not remove %s: rmdir it by hand\n' "$instance" >&2
}

# start COMMAND..: starts a command that has our standard input and that Ctrl-C ends, unlike other commands in the background.
# `wait` returns at a signal, before the command ends.
start() {
    (trap - INT QUIT && exec "$@") <&0 4>&- &
    child=$!
}

# run COMMAND..: runs a command to its end, and returns its status.
run() {
    local status
    start "$@"
    wait "$child"
    status=$?
    child=
    return "$status"
}

# Waits for the end of the recording, and returns the status of the command. If Ctrl-C ended the recording, it ends the command
# too, unless the terminal has done that.
finish_recording() {
    local status
    wait "$child"
    status=$?
    set_to 0 tracing_on
    trap 'exit 130' INT
    if [[ -n $interrupted ]]; then
        for _ in 1 2 3 4 5; do
            kill -0 "$child" 2>/dev/null || break
            sleep 0.1
        done
        kill -INT "$child" 2>/dev/null
        wait "$child"
    fi
    child=
    return "$status"
}

# path_of NAME: prints where an event is below events/.
path_of() {
    if [[ $1 == *:* ]]; then
        echo "${1/:/\/}"
    elif [[ ! -e $tracefs/events/sched/$1 && -e $tracefs/events/sched/sched_$1 ]]; then
        echo "sched/sched_$1"
    else
        echo "sched/$1"
    fi
}

# cpus_of CPUS: prints each of these CPUs; fails if they can't be read, or if the machine lacks one.
cpus_of() {
    local part cpu first last parts
    IFS=, read -ra parts <<<"$1"
    for part in "${parts[@]}"; do
        [[ $part =~ ^([0-9]{1,4})(-([0-9]{1,4}))?$ ]] || return
        first=$((10#${BASH_REMATCH[1]}))
        last=$((10#${BASH_REMATCH[3]:-$first}))
        for ((cpu = first; cpu <= last; cpu++)); do
            [[ -d $tracefs/per_cpu/cpu$cpu ]] || return
            echo "$cpu"
        done
    done
}

# mask_of CPU..: prints the CPUs as tracing_cpumask has them, in words of 32 bits with the highest first.
mask_of() {
    local cpu most=0 words=() mask
    for cpu in "$@"; do
        words[cpu / 32]=$((${words[cpu / 32]:-0} | 1 << cpu % 32))
        most=$((cpu / 32 > most ? cpu / 32 : most))
    done
    printf -v mask '%x' "${words[most]:-0}"
    while ((most-- > 0)); do
        printf -v mask '%s,%08x' "$mask" "${words[most]:-0}"
    done
    echo "$mask"
}

# Prints the counts of each CPU, in order.
stats() {
    local cpu
    for cpu in $(printf '%s\n' "$instance"/per_cpu/cpu*/ | sed -E 's|.*/cpu([0-9]+)/$|\1|' | sort -n); do
        echo "cpu: $cpu"
        cat -- "$instance/per_cpu/cpu$cpu/stats"
    done
}

# Prints how many events there are, and which CPUs lost some. A line for the trace says of each CPU how many events it has
# overwritten; if none, it has no hole before its first event, as all CPUs begin at once. Another line says how many it has
# dropped, as it does from then on if its buffer is full and may not be overwritten. If interrupts filled a whole buffer while
# an event was written, nothing says when: the line names the last CPU that a line may name, so that the hole is as long as the
# recording. If a buffer was too small, the last line has the size that would have been enough: it is larger in proportion to
# the events that there were, and by another tenth, rounded up in steps of an eighth to a quarter.
losses() {
    stats | awk -F ': *' -v "buffer=$(<"$instance/buffer_size_kb")" -v most_lines=8 -v "chosen=${chosen[*]}" '
        $1 == "cpu" { cpu[++n] = $2 }
        $1 == "entries" { entries[n] = $2; all += $2 }
        $1 == "overrun" { over[n] = $2; overwritten += $2 }
        $1 == "commit overrun" { unplaced += $2 }
        $1 == "dropped events" { dropped[n] = $2 }
        $1 ~ /^(overrun|commit overrun|dropped events)$/ { lost[n] += $2; gone += $2 }
        END {
            printf "%d events, %d lost\n", all, gone
            for (i = 1; i <= n; i++) {
                if (i in over && (chosen == "" || index(" " chosen " ", " " cpu[i] " "))) {
                    printf "# CPU %s: %d events overwritten\n", cpu[i], over[i]
                }
                if (dropped[i]) {
                    printf "CPU:%s [LOST %d EVENTS]\n", cpu[i], dropped[i]
                }
                if (lost[i] && ++losing <= most_lines) {
                    printf "CPU %s lost %d of %d events\n", cpu[i], lost[i], lost[i] + entries[i]
                }
                need = 1.1 * buffer * (entries[i] + over[i]) / (entries[i] ? entries[i] : 1)
                most = over[i] && need > most ? need : most
            }
            if (unplaced) {
                printf "CPU:8191 [LOST %d EVENTS]\n", unplaced
            }
            if (losing > most_lines) {
                printf "%d more CPUs lost events\n", losing - most_lines
            }
            for (step = 1; step * 8 < most; step *= 2) {
            }
            if (overwritten) {
                printf "--buffer %d would have held them\n", step * (int(most / step) + 1)
            }
        }'
}

# Adds the lines for the trace to it, and reports the others.
report_losses() {
    local line
    while read -r line; do
        case $line in
        '#'* | CPU:*) printf '%s\n' "$line" ;;
        *) printf 'record: %s\n' "$line" >&2 ;;
        esac
    done < <(losses)
}

# Writes the text, and after it how much was lost of each CPU.
write_text() {
    if command -v python3 >/dev/null; then
        PYTHONPATH=$here/../..${PYTHONPATH:+:$PYTHONPATH} run python3 -Bm histdesk.cli.kernel_text record "$instance/trace"
    else
        run cat -- "$instance/trace"
    fi && report_losses
}

while (($# > 0)); do
    case $1 in
    --help)
        printf '%s\n' "$usage"
        exit 0
        ;;
    -o | --buffer | --cpu | --events | --tracefs)
        (($# > 1)) || stop 2 "$1 needs a value; --help says more"
        case $1 in
        -o) output=$2 ;;
        --buffer) buffer=$2 ;;
        --cpu) cpus=$2 ;;
        --events) events=$2 ;;
        --tracefs) tracefs=$2 ;;
        esac
        shift 2
        ;;
    --) break ;;
    -*) stop 2 "no such option: $1; --help says more" ;;
    *) break ;;
    esac
done
command=()
seconds=
if [[ ${1-} == -- ]]; then
    command=("${@:2}")
    ((${#command[@]} > 0)) || stop 2 "expects a COMMAND after --; --help says more"
    type -P -- "${command[0]}" >/dev/null || stop 2 "there is no command ${command[0]}"
else
    (($# == 1)) || stop 2 "expects one argument, SECONDS, or -- and a COMMAND; --help says more"
    seconds=$1
    if ! [[ $seconds =~ ^[0-9]+(\.[0-9]+)?$ && $seconds =~ [1-9] ]]; then
        stop 2 "SECONDS is not a number above 0: $seconds"
    fi
fi
[[ $buffer =~ ^[1-9][0-9]*$ ]] || stop 2 "KIB is not a number above 0: $buffer"

if [[ ! -d $tracefs/events ]]; then
    # Only root may look into the folder.
    if [[ $EUID != 0 ]]; then
        stop 1 "not root: only root may trace"
    fi
    stop 1 "no tracefs at $tracefs; try: mount -t tracefs nodev $tracefs"
fi
[[ -d $tracefs/instances ]] || stop 1 "no instances in $tracefs: this kernel has none"
[[ -w $tracefs/instances ]] || stop 1 "not root: cannot write in $tracefs/instances"
IFS=, read -ra names <<<"$events"
paths=()
for name in "${names[@]}"; do
    [[ $name =~ ^[A-Za-z0-9_-]+(:[A-Za-z0-9_-]+)?$ ]] || stop 2 "NAMES is not a list of events: $events"
    path=$(path_of "$name")
    [[ -e $tracefs/events/$path/enable ]] || stop 1 "this kernel lacks the event $name"
    paths+=("$path")
done
((${#paths[@]} > 0)) || stop 2 "NAMES is not a list of events: $events"
chosen=()
if [[ -n $cpus ]]; then
    if ! listed=$(cpus_of "$cpus") || [[ -z $listed ]]; then
        stop 2 "CPUS is not a list of CPUs of this machine: $cpus"
    fi
    mapfile -t chosen <<<"$listed"
fi
# The output of the command doesn't get into the trace.
exec 4>&2
if [[ -n $output ]]; then
    exec 4>&1
    { exec >"$output"; } 2>/dev/null || stop 1 "cannot write $output"
fi

trap remove_instance EXIT
trap 'exit 130' INT
trap 'exit 143' TERM
trap 'exit 129' HUP
instance=$tracefs/instances/histdesk.$$
if ! mkdir -- "$instance" 2>/dev/null; then
    failed=$instance
    instance=
    stop 1 "cannot make $failed"
fi
set_to 0 tracing_on
for option in "${on[@]}"; do
    [[ ! -e $instance/options/$option ]] || set_to 1 "options/$option"
done
for option in "${off[@]}"; do
    [[ ! -e $instance/options/$option ]] || set_to 0 "options/$option"
done
set_to local trace_clock
set_to "$buffer" buffer_size_kb
((${#chosen[@]} == 0)) || set_to "$(mask_of "${chosen[@]}")" tracing_cpumask
for path in "${paths[@]}"; do
    set_to 1 "events/$path/enable"
done
interrupted=
trap 'interrupted=1' INT
set_to 1 tracing_on
if [[ -n $seconds ]]; then
    start sleep "$seconds"
    finish_recording
else
    start "${command[@]}" >&4
    finish_recording
    status=$?
    # After Ctrl-C, bash may not know the status.
    [[ -n $interrupted ]] || printf 'record: %s ended with status %d\n' "${command[0]}" "$status" >&2
fi
write_text || stop 1 "could not write the whole text"
