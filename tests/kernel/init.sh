#!/bin/busybox sh
# shellcheck shell=dash
# The first process of the guest that tests/kernel.sh boots. It attaches the triggers of /cases, runs the workload, and
# writes what the kernel then shows to the second serial line, as the base64 of a tar. Its arguments come from the
# kernel's command line: hd_seed=SEED and hd_clock=CLOCK.
#
# A line of /cases is a number, a file of tracefs and a text, with tabs between them. The text is appended to the file:
# a file that is opened to be written anew loses all its triggers first.
/bin/busybox mkdir -p /proc /sys /dev /out
/bin/busybox --install -s /bin
mount -t proc none /proc
mount -t sysfs none /sys
mount -t devtmpfs none /dev
tracefs=/sys/kernel/tracing
mount -t tracefs none "$tracefs"
seed=$(sed -n 's/.*hd_seed=\([0-9]*\).*/\1/p' /proc/cmdline)
clock=$(sed -n 's/.*hd_clock=\([a-z]*\).*/\1/p' /proc/cmdline)
events='sched_waking sched_wakeup sched_wakeup_new sched_switch'

cd "$tracefs" || poweroff -f
echo 0 >tracing_on
# The triggers with a stamp set this clock, too.
echo "$clock" >trace_clock
echo 65536 >buffer_size_kb
echo 8192 >saved_cmdlines_size
for event in $events; do
    echo 1 >"events/sched/$event/enable"
done

tab=$(printf '\t')
: >/out/refused
while IFS=$tab read -r number file text; do
    : >error_log
    if ! printf '%s\n' "$text" 2>/dev/null >>"$file"; then
        printf '%s\t%s\t%s\n' "$number" "$file" "$(sed -n 's/.*error: //p' error_log | tr '\n\t' '  ')" >>/out/refused
    fi
done </cases

: >trace
echo 1 >tracing_on
/workload "$seed"
echo "$?" >/out/status
# The last events of a task come after the end that its parent sees.
sleep 1
echo 0 >tracing_on

cat trace >/out/trace
cat per_cpu/cpu*/stats >/out/stats
uname -rv >/out/version
cat trace_clock >/out/clock
for event in $events; do
    cat "events/sched/$event/hist" >"/out/$event.hist"
done
for folder in events/synthetic/*/; do
    [ -e "$folder/hist" ] || continue
    cat "$folder/hist" >"/out/$(basename "$folder").hist"
done
stty -F /dev/ttyS1 raw 115200
tar -c -z -C /out . | base64 >/dev/ttyS1
poweroff -f
