#!/bin/busybox sh
# shellcheck shell=dash
# The first process of the guest that tests/kernel.sh --judge boots. It records the guest by tracefs under a load of its own,
# with the kernel's account of waits, and writes the recordings to the second serial line, as the base64 of a tar. Each is a
# folder as tests/judge/verdict.py describes it. Its argument comes from the kernel's command line: hd_seed=SEED.
/bin/busybox mkdir -p /proc /sys /dev /out
/bin/busybox --install -s /bin
mount -t proc none /proc
mount -t sysfs none /sys
mount -t devtmpfs none /dev
tracefs=/sys/kernel/tracing
mount -t tracefs none "$tracefs"
seed=$(sed -n 's/.*hd_seed=\([0-9]*\).*/\1/p' /proc/cmdline)
events='sched_waking sched_wakeup sched_wakeup_new sched_switch sched_stat_runtime'

cd "$tracefs" || poweroff -f
echo 0 >tracing_on
echo mono >trace_clock
echo 8192 >saved_cmdlines_size
for event in $events; do
    echo 1 >"events/sched/$event/enable"
done

# So many microseconds may the kernel's account lack for each wait: an emulated processor takes long for the path from what the
# kernel counts to what it records. One of several also stands still while qemu waits for a processor of the machine, and the
# kernel's clock doesn't: shares aren't judged then, as the kind isn't known by its name.
each=400
several=
if [ "$(grep -c ^processor /proc/cpuinfo)" != 1 ]; then
    each=10000
    several='several processors, '
fi

# load NAME: loads the guest until it is ended.
load() {
    while :; do
        if [ "$1" = loaded ]; then
            seed=$((seed + 1))
            /workload "$seed" >/dev/null 2>&1
        else
            usleep 20000
        fi
    done
}

# record KIND LOAD KIB OVERWRITE: makes a recording of four seconds.
record() {
    folder=/out/$1-$2
    mkdir -p "$folder"
    printf '%s\n%s\n\n%s\n' "$several$1" "$2" "$each" >"$folder/plan"
    echo "$3" >buffer_size_kb
    echo "$4" >options/overwrite
    load "$2" &
    work=$!
    : >trace
    echo 1 >tracing_on
    /readings 4 >"$folder/readings"
    echo 0 >tracing_on
    kill "$work"
    cat trace >"$folder/text"
}

record tracefs quiet 32768 1
record tracefs loaded 32768 1
record tracefs-small quiet 64 1
record tracefs-small loaded 400 1
record tracefs-full quiet 64 0
record tracefs-full loaded 400 0
uname -rv >/out/version
stty -F /dev/ttyS1 raw 115200
tar -c -z -C /out . | base64 >/dev/ttyS1
poweroff -f
