#!/usr/bin/env bash
# tools.sh [HISTDESK [HISTWATCH]]: runs the scripts of tools/ as a user would: explain over the rows and over a table of
# refusals and faults, with HISTWATCH too if it is given, desk over the rows and on a terminal, the others on short texts
# and on a folder that stands in for tracefs. Without arguments, it runs the launcher. It prints what went wrong, and a last
# line with the counts.
# shellcheck disable=SC2154 # what counts.sh assigns
set -uo pipefail

tests=$(dirname -- "$(dirname -- "$(realpath -- "${BASH_SOURCE[0]}")")")
HISTDESK=$(realpath -- "${1:-$tests/../histdesk}")
export HISTDESK
histwatch=${2:+$(realpath -- "$2")}
tools=$(realpath -- "$tests/../tools")
examples=$(realpath -- "$tests/../examples")
. "$tests/counts.sh"
. "$tests/tools/common.sh"

mkdir -- "$folder/bin" "$folder/table"

# ---- explain

holds "$tests/tools/explained.py" "$tools/explain" "$folder/table"
holds "$tests/tools/explain_rows.py" "$tools/explain" "$tests"/rows/*

gives nothing_refused 0 "" "$tools/explain" "$examples/wakeups.script" "$examples/wakeups.trace"
prints nothing_refused "$(<"$examples/wakeups.expected")"
printf 'hist 7\n' >"$folder/asked"
text=$'refused 10\n  line 1: hist 7: no such trigger is attached; none is'
gives without_words 1 "" "$tools/explain" <"$folder/asked"
prints without_words "$text"
gives standard_input 1 "" "$tools/explain" - <"$folder/asked"
prints standard_input "$text"
gives script_from_a_pipe 1 "" "$tools/explain" <(cat "$folder/asked")
prints script_from_a_pipe "$text"
gives usage 0 "" "$tools/explain" --help
printf '%s\n' 'insert a-1 [001] 1.000000:' 'strike 1:1' 'list 1' 'list 1' '' 'list 2' 'insert a-1 [001] 1.000000:' 'list 1' \
    'list 01' 'totals 5' >"$folder/lists"
gives empty_lists 1 "" "$tools/explain" "$folder/lists"
prints empty_lists 'inserted 1:1
struck 1:1
refused 5: cpu 2
  line 6: list 2
    no events of CPU 2 are held: none was loaded or inserted, or they were
    unloaded
inserted 1:2
1:2 a-1 [001] 1.000000:
1:2 a-1 [001] 1.000000:
refused 10
  line 10: totals 5: no such trigger is attached; none is'

# With --strict nothing is printed after the first refused line, so no table of a trace that was not loaded.
printf '%s\n' 'load @1' 'attach sched_waking hist:keys=pid' 'hist 1' >"$folder/strict"
ln -s -- "$examples/torn.trace" "$folder/torn"
cd -- "$folder" || exit
text="refused 3: line 15 fault 3
  line 1: load @1
    torn, line 15: expected a timestamp SECONDS.MICROSECONDS: here, or the flags
    exceed 16 bytes
              <idle>-0       [003] d.h4.  6012.00"
lost='explain: --strict ends at line 1, which was refused'
gives strict 1 "$lost" "$tools/explain" --strict strict torn
prints strict "$text"
gives strict_typed 1 "$lost" "$tools/explain" - --strict -- torn <strict
prints strict_typed "$text"
cd -- "$OLDPWD" || exit
gives strict_accepted 0 "" "$tools/explain" "$examples/wakeups.script" --strict "$examples/wakeups.trace"
prints strict_accepted "$(<"$examples/wakeups.expected")"
# A trace in the script's place is reported as such, and not each of its lines; so is a recording.
lost='it looks like a trace, and the script stands before it: tools/explain SCRIPT'
trace=$examples/wakeups.trace
gives no_script 2 "explain: $trace is no script: $lost $trace" "$tools/explain" "$trace"
prints no_script ""
gives no_typed_script 2 "explain: standard input is no script: $lost /dev/stdin" "$tools/explain" <"$trace"
printf 'PERFILE2' >"$folder/recorded"
gives recorded 2 "explain: $folder/recorded is no script: it is a recording of perf; *" "$tools/explain" "$folder/recorded"
# If nobody reads its pipe any more, the signal ends it, as it ends other programs.
{ echo 'load @1' && yes 'list 0' | head -n 20000; } >"$folder/many"
"$tools/explain" "$folder/many" "$examples/wakeups.trace" 2>"$folder/err" | head -n 1 >"$folder/out"
echo "${PIPESTATUS[0]} $(<"$folder/err")" >>"$folder/out"
prints closed_pipe $'loaded 27\n141 '

if [[ -n $histwatch ]]; then
    HISTDESK=$histwatch holds "$tests/tools/explained.py" "$tools/explain" "$folder/table"
    HISTDESK=$histwatch holds "$tests/tools/explain_rows.py" --watched "$tools/explain" "$tests"/rows/*
    HISTDESK=$histwatch gives watched 0 "" "$tools/explain" "$examples/changes.script" "$examples/wakeups.trace"
    prints watched "$(<"$examples/changes.expected")"
fi

# Programs that stand in for the desk, for output that it would print only after long, or never.
script full 'echo "refused 7"; echo "refused 15"; echo "refused 1"; echo "refused 99"' 'echo told >&2' 'exit 3'
printf '%s\n' '# full' 'insert x' 'attach sched_switch hist:keys=next_pid' 'load @1' 'load @2' >"$folder/asked"
HISTDESK=$folder/bin/full gives full 3 told "$tools/explain" "$folder/asked"
prints full 'refused 7
  line 2: insert x
    more than 1048576 events would be held, or a line number would pass
    4294967295
refused 15
  line 3: attach sched_switch hist:keys=next_pid
    64 triggers are attached, or the ids are used up
refused 1
  line 4: load @1: out of memory
refused 99
  line 5: load @2: no refusal that the library knows'
script other 'echo "removed 2"; echo "refused 10"'
lost='explain: line 1 of the output is no answer to the command on line 2; nothing after it is explained'
HISTDESK=$folder/bin/other gives other_output 0 "$lost" "$tools/explain" "$folder/asked"
prints other_output $'removed 2\nrefused 10'
# Programs that stand in for histwatch. Rows that changed stand only after an accepted insert or strike.
printf '%s\n' 'insert a-1 [000] 1.000000:' 'strike 0:1' 'list 0' 'insert x' 'hist 9' >"$folder/asked"
cat >"$folder/changed" <<'END'
inserted 0:1
- 1 { comm: a, } { b: - 2 } hitcount:          1
+ 1 { comm: a, } { b: - 2 } hitcount:          2
+ 12 { lat: ~ 2^4  } hitcount:          1  lat:         20
changed 2
struck 0:1
changed 0
refused 3: line 1 fault 1
END
script watch "cat -- '$folder/changed'" 'echo "refused 10"' 'exit 1'
HISTDESK=$folder/bin/watch gives changed_rows 1 "" "$tools/explain" "$folder/asked"
prints changed_rows "$(<"$folder/changed")
  line 4: insert x: expected TASK-PID [CPU] and a space at the start of the line
refused 10
  line 5: hist 9: no such trigger is attached; none is"
script watch_twice 'echo "inserted 0:1"' 'echo "changed 0"' 'echo "changed 0"' 'echo "refused 10"'
lost='explain: line 3 of the output is no answer to the command on line 2; nothing after it is explained'
HISTDESK=$folder/bin/watch_twice gives changed_twice 0 "$lost" "$tools/explain" "$folder/asked"
script watch_refused 'echo "refused 3: line 1 fault 1"' 'echo "+ 1 { pid:          7 } hitcount:          1"'
lost='explain: line 2 of the output is no answer to the command on line 2; nothing after it is explained'
HISTDESK=$folder/bin/watch_refused gives changed_by_nothing 0 "$lost" "$tools/explain" "$folder/asked"
script killed 'kill -KILL $$'
HISTDESK=$folder/bin/killed gives killed 137 "" "$tools/explain" "$folder/asked"
HISTDESK=$folder/bin/none gives no_program 2 "explain: cannot run *" "$tools/explain" "$folder/asked"
# Without the library, only --help runs.
lost="explain: * needs the library libhistdesk.so.0, *$folder/none: *"$'\n'"build/build makes it *"
HISTDESK_LIBRARY=$folder/none gives no_library 2 "$lost" "$tools/explain" "$folder/asked"
prints no_library ""
HISTDESK_LIBRARY=$folder/none gives usage_alone 0 "" "$tools/explain" --help
script desk 'while read -r line; do echo "refused 10"; done' 'exit 1'
mkfifo "$folder/typed"
: >"$folder/seen"
HISTDESK=$folder/bin/desk timeout "$limit" "$tools/explain" <"$folder/typed" >"$folder/seen" &
exec 3<>"$folder/typed"
echo 'lat 3' >&3
for ((try = 0; try < 500; try++)); do
    [[ $(<"$folder/seen") != *'line 1: lat 3: no such trigger'* ]] || break
    sleep 0.02
done
exec 3>&-
wait "$!"
if [[ $? == 1 && $try -lt 500 ]]; then
    pass
else
    fail "explained as it is typed: $(<"$folder/seen")"
fi

# ---- desk

python=$(python_with numpy) || python=python3
holds "$python" "$tests/tools/desk_prompt.py" "$tools/desk" "$tests"/rows/*
gives desk_usage 0 "" "$tools/desk" --help
HISTDESK_LIBRARY=$folder/none gives desk_without_library 2 "desk: histdesk needs the library *" "$tools/desk"

# ---- help without the library

for tool in summary waits why diff view export desk; do
    HISTDESK_LIBRARY=$folder/none gives "$tool --help" 0 "" "$tools/$tool" --help
    has "$tool --help" "$folder/out" "usage: tools/$tool .*"
done
# A script called --help needs it.
: >"$folder/--help"
HISTDESK_LIBRARY=$folder/none gives "desk -- --help" 2 "desk: histdesk needs the library *" \
    env -C "$folder" "$tools/desk" -- --help <"$folder/--help"

# ---- bars

cat >"$folder/tables" <<'END'
loaded 9
# event histogram
#
# trigger info: hist:keys=lat.log2:vals=hitcount,lat:sort=lat:size=2048 [active]
#

{ lat: ~ 2^0  } hitcount:          9  lat:          0
{ lat: ~ 2^3  } hitcount:        120  lat:        700
{ lat: ~ 2^4  } hitcount:          1  lat:         16
{ lat: ~ 2^26 } hitcount:         40  lat:   99999999

Totals:
    Hits: 170
    Entries: 4
    Dropped: 0
# event histogram
#
# trigger info: hist:keys=prio.buckets=10:vals=hitcount:sort=prio:size=2048 if pid != 1 && lat > 0 [active]
#

{ prio: ~ 90-99 } hitcount:          1
{ prio: ~ 120-129 } hitcount:          2
{ prio: ~ 18446744073709551600-18446744073709551609 } hitcount:          1

Totals:
    Hits: 4
# trigger info: hist:keys=pid.log2:vals=hitcount:sort=pid.descending:size=2048 [active]
{ pid: ~ 2^5  } hitcount:          1
{ pid: ~ 2^2  } hitcount:          1

# trigger info: hist:keys=comm:vals=hitcount:sort=hitcount:size=2048 [active]
{ comm: a, b: ~ 2^7                                        } hitcount:          3
{ comm: x } hitcount:          8                           } hitcount: 18446744073709551615

# trigger info: hist:keys=comm,pid:vals=hitcount:sort=hitcount:size=2048 [active]
{ comm: a                                                 , pid:          7 } hitcount:          3
0:1 -> 0:2: 50 us
END
cat >"$folder/drawn" <<'END'
loaded 9
# event histogram
#
# trigger info: hist:keys=lat.log2:vals=hitcount,lat:sort=lat:size=2048 [active]
#

lat: ~ 2^0           9  @@@
lat: ~ 2^1           0
lat: ~ 2^2           0
lat: ~ 2^3         120  @@@@@@@@@@@@@@@@@@@@@@@@@@@@@@@@@@@@@@@@
lat: ~ 2^4           1  @
..
lat: ~ 2^26         40  @@@@@@@@@@@@@@

Totals:
    Hits: 170
    Entries: 4
    Dropped: 0
# event histogram
#
# trigger info: hist:keys=prio.buckets=10:vals=hitcount:sort=prio:size=2048 if pid != 1 && lat > 0 [active]
#

prio: ~ 90-99                                              1  @@@@@@@@@@@@@@@@@@@@
prio: ~ 100-109                                            0
prio: ~ 110-119                                            0
prio: ~ 120-129                                            2  @@@@@@@@@@@@@@@@@@@@@@@@@@@@@@@@@@@@@@@@
..
prio: ~ 18446744073709551600-18446744073709551609          1  @@@@@@@@@@@@@@@@@@@@

Totals:
    Hits: 4
# trigger info: hist:keys=pid.log2:vals=hitcount:sort=pid.descending:size=2048 [active]
pid: ~ 2^5          1  @@@@@@@@@@@@@@@@@@@@@@@@@@@@@@@@@@@@@@@@
pid: ~ 2^2          1  @@@@@@@@@@@@@@@@@@@@@@@@@@@@@@@@@@@@@@@@

# trigger info: hist:keys=comm:vals=hitcount:sort=hitcount:size=2048 [active]
comm: a, b: ~ 2^7                       3  @
comm: x } hitcount:          8 18446744073709551615  @@@@@@@@@@@@@@@@@@@@@@@@@@@@@@@@@@@@@@@@

# trigger info: hist:keys=comm,pid:vals=hitcount:sort=hitcount:size=2048 [active]
{ comm: a                                                 , pid:          7 } hitcount:          3
0:1 -> 0:2: 50 us
END
gives bars 0 "" "$tools/bars" "$folder/tables"
prints bars "$(<"$folder/drawn")"
gives bars_of_standard_input 0 "" "$tools/bars" <"$folder/tables"
prints bars_of_standard_input "$(<"$folder/drawn")"
gives bars_of_nothing 0 "" "$tools/bars" /dev/null
prints bars_of_nothing ""
gives bars_usage 0 "" "$tools/bars" --help
gives bars_of_no_file 2 "bars: $folder/none: No such file or directory" "$tools/bars" "$folder/none"

# ---- from-perf and from-trace-cmd

cat >"$folder/perf" <<'END'
# a comment

            perf 25692 [000]  3752.816363499:     sched:sched_waking: comm=migration/0 pid=18 prio=0 target_cpu=000
     my app-2 [x  9/10 [003]     1.000000500:     sched:sched_wakeup: comm=a: b pid=3 prio=-1 target_cpu=001
         swapper     0 [001]     4.999999500: sched:sched_wakeup_new: comm=w pid=3 prio=120 target_cpu=001
       a 7 [001]  100 [001]  3752.816400: sched:sched_switch: prev_comm=p q prev_pid=1 prev_prio=2 prev_state=R+ ==> next_comm=c next_pid=3 next_prio=4
    bash 12 [002] 7.000001: probe:sched_waking: (ffffffff81000000)
END
listed='loaded 5
0:1 perf-25692 [000] 3752.816363: sched_waking: comm=migration/0 pid=18 prio=0 target_cpu=000
1:1 swapper-0 [001] 5.000000: sched_wakeup_new: comm=w pid=3 prio=120 target_cpu=001
1:2 a 7 [001]-100 [001] 3752.816400: sched_switch: prev_comm=p q prev_pid=1 prev_prio=2 prev_state=R+ ==> next_comm=c next_pid=3 next_prio=4
2:1 bash-12 [002] 7.000001:
3:1 my app-2 [x-10 [003] 1.000001: sched_wakeup: comm=a: b pid=3 prio=-1 target_cpu=001'
loads from_perf 0 "" "$listed" "$tools/from-perf" "$folder/perf"
loads from_perf_by_standard_input 0 "" "$listed" "$tools/from-perf" <"$folder/perf"
cat >"$folder/trace-cmd" <<'END'
cpus=4
version = 6
CPU 2 is empty
            perf-25692 [000]  3752.816363499: sched_waking:         comm=migration/0 pid=18 prio=0 target_cpu=000
     my app-2 [x-10    [003]     1.000000500: sched_wakeup:         comm=a: b pid=3 prio=-1 target_cpu=001
CPU:1 [7 EVENTS DROPPED]
CPU:1 [EVENTS DROPPED]
         swapper-0     [001] d..2.     4.999999500: sched_wakeup_new:     comm=w pid=3 prio=120 target_cpu=001
       a 7 [001]-100   [001]  3752.816400: sched_switch:         prev_comm=p q prev_pid=1 prev_prio=2 prev_state=R+ ==> next_comm=c next_pid=3 next_prio=4
            bash-12    [002]  7.000001: irq_handler_entry:    irq=1 name=x
END
lost='from-trace-cmd: 7 events and more were lost at 2 places (CPU 1); lines of the trace say where'
loads from_trace_cmd 0 "$lost" "$listed" "$tools/from-trace-cmd" "$folder/trace-cmd"
loads from_trace_cmd_by_standard_input 0 "$lost" "$listed" "$tools/from-trace-cmd" - <"$folder/trace-cmd"
has lost_events "$folder/trace" 'CPU:1 \[LOST 7 EVENTS\]' 'CPU:1 \[LOST EVENTS\]' '# cpus=4'
kept='loaded 1
0:1 a-1 [000] 1.000000:
refused 5: cpu 1
refused 5: cpu 2
refused 5: cpu 3'
printf '%s\n' 'a 1 [000] 1.000000: x:' 'hello' >"$folder/bad"
loads bad_perf 1 'from-perf: line 2: *: hello' "$kept" "$tools/from-perf" "$folder/bad"
# perf's own line about lost events stands after them, with the stamp of the next event of its CPU.
cat >"$folder/lost" <<'END'
               a     1 [000]     1.000000000: sched:sched_wakeup_new: comm=w pid=3 prio=120 target_cpu=001
            perf     1 [003]     1.000001000: PERF_RECORD_LOST lost 5948
               a     1 [003]     1.000001000: sched:sched_wakeup_new: comm=w pid=3 prio=120 target_cpu=001
END
gives lost_perf 0 'from-perf: 5948 events were lost at one place (CPU 3); lines of the trace say where' \
    "$tools/from-perf" "$folder/lost"
prints lost_perf 'a-1 [000] 1.000000: sched_wakeup_new: comm=w pid=3 prio=120 target_cpu=001
CPU:3 [LOST 5948 EVENTS]
a-1 [003] 1.000001: sched_wakeup_new: comm=w pid=3 prio=120 target_cpu=001'
# perf has no name and no number of a task that is gone; the task's last switch has both, and so has the last switch to it.
switch='sched_switch: prev_comm=gone a prev_pid=529 prev_prio=115 prev_state=X ==> next_comm=c next_pid=3 next_prio=4'
printf '%s\n' "             :-1    -1 [000]     8.000000499:     sched:$switch" >"$folder/gone"
loads gone_task 0 "" "${kept/a-1 \[000\] 1.000000:/gone a-529 [000] 8.000000: $switch}" "$tools/from-perf" "$folder/gone"
cat >"$folder/gone" <<'END'
               b     2 [000]     1.000000000:     sched:sched_switch: prev_comm=b prev_pid=2 prev_prio=1 prev_state=S ==> next_comm=dying a next_pid=7 next_prio=4
               c     4 [001]     1.000001000:     sched:sched_switch: prev_comm=c prev_pid=4 prev_prio=1 prev_state=S ==> next_comm=d next_pid=8 next_prio=4
             :-1    -1 [000]     1.000002000:     sched:sched_waking: comm=c pid=4 prio=1 target_cpu=001
             :-1    -1 [002]     1.000003000:     sched:sched_waking: comm=c pid=4 prio=1 target_cpu=001
END
gives gone_waker 1 'from-perf: line 4: perf knows no task of this event, and no switch before it tells one: *' \
    "$tools/from-perf" "$folder/gone"
has gone_waker "$folder/out" 'dying a-7 \[000\] 1\.000002: sched_waking: comm=c pid=4 prio=1 target_cpu=001'
# What trace-cmd prints without -N, by its plugins; stamps may have six digits, and blanks may be taken away.
cat >"$folder/plugins" <<'END'
cpus=4
            a b-1     [000]     1.000000: sched_waking:         comm=x: 1 [2] pid=9 prio=120 target_cpu=001
            a b-1     [000]     1.000001: sched_wakeup:         x: 1 [2]:9 [120] CPU:001
            a b-1     [000]     1.000001: sched_wakeup_new:     y:8 [98] success=1 CPU:000
            a b-1     [000]     1.000002: sched_switch:         a b:1 [-1] D|W ==> c -> d:3 [120]
           c -> d-3   [000] d..2. 1.000003500: sched_switch: c -> d:3 [120] R ==> swapper/0:0 [120]
END
plugins='loaded 5
0:1 a b-1 [000] 1.000000: sched_waking: comm=x: 1 [2] pid=9 prio=120 target_cpu=001
0:2 a b-1 [000] 1.000001: sched_wakeup: comm=x: 1 [2] pid=9 prio=120 target_cpu=001
0:3 a b-1 [000] 1.000001: sched_wakeup_new: comm=y pid=8 prio=98 target_cpu=000
0:4 a b-1 [000] 1.000002: sched_switch: prev_comm=a b prev_pid=1 prev_prio=-1 prev_state=D|W ==> next_comm=c -> d next_pid=3 next_prio=120
0:5 c -> d-3 [000] 1.000004: sched_switch: prev_comm=c -> d prev_pid=3 prev_prio=120 prev_state=R ==> next_comm=swapper/0 next_pid=0 next_prio=120
refused 5: cpu 1
refused 5: cpu 2
refused 5: cpu 3'
loads plugins 0 "" "$plugins" "$tools/from-trace-cmd" "$folder/plugins"
printf '%s\n' 'a-1 [000] 1.000000: x:' 'b-2 [000] 1.000000: sched_switch: b:2 [120] S => c:3 [120]' >"$folder/bad"
loads bad_trace_cmd 1 'from-trace-cmd: line 2: the fields of sched_switch *report it with -N: b-2 *' "$kept" \
    "$tools/from-trace-cmd" "$folder/bad"
# Torn lines: five are shown, none of their bytes raw.
for ((line = 0; line < 7; line++)); do
    printf 'a 1 [000] 1.000000: x:\na 1 [000] 2.000000: sched:%s\n' "${switch%c next_pid*}"$'\e'
done >"$folder/bad"
gives torn_perf 1 'from-perf: line 2: the fields of sched_switch are not whole: a 1 *next_comm=\\x1b
from-perf: line 4: *
from-perf: line 6: *
from-perf: line 8: *
from-perf: line 10: *
from-perf: 2 more lines can'"'"'t be converted and are left out too' "$tools/from-perf" "$folder/bad"
prints torn_perf "$(printf 'a-1 [000] 1.000000: x:\n%.0s' 1 2 3 4 5 6 7)"

# Names that would mislead the desk, in the three texts whose columns tell them. The first has a line break.
odd_names='loaded 4
0:1 a?b-7 [000] 1.000000: sched_switch: prev_comm=a?b prev_pid=7 prev_prio=1 prev_state=S ==> next_comm=?x next_pid=9 next_prio=2
0:2 a-12 ?003] x-8 [000] 2.000000: sched_waking: comm=a-12 [003] x pid=8 prio=1 target_cpu=001
0:3 #x-9 [000] 3.000000: sched_switch: prev_comm= ==> next_comm= prev_pid=9 prev_prio=1 prev_state=S ==> next_comm= ==? next_comm= next_pid=3 next_prio=4
0:4 kworker/u16:2-events_freezable_-5 [000] 4.000000: sched_waking: comm=c pid=4 prio=1 target_cpu=001
refused 5: cpu 1
refused 5: cpu 2
refused 5: cpu 3'
cat >"$folder/odd" <<'END'
             a
b     7 [000]     1.000000000:     sched:sched_switch: prev_comm=a
b prev_pid=7 prev_prio=1 prev_state=S ==> next_comm=
x next_pid=9 next_prio=2
    a-12 [003] x     8 [000]     2.000000000:     sched:sched_waking: comm=a-12 [003] x pid=8 prio=1 target_cpu=001
              #x     9 [000]     3.000000000:     sched:sched_switch: prev_comm= ==> next_comm= prev_pid=9 prev_prio=1 prev_state=S ==> next_comm= ==> next_comm= next_pid=3 next_prio=4
kworker/u16:2-events_freezable_power_     5 [000]     4.000000000:     sched:sched_waking: comm=c pid=4 prio=1 target_cpu=001
END
masked='names in 4 lines would mislead the desk and are masked with ?; the first, line 1: *'
loads odd_perf 0 "from-perf: $masked" "$odd_names" "$tools/from-perf" "$folder/odd"
cat >"$folder/odd_kernel" <<'END'
             a
b-7       [000] d..2.     1.000000: sched_switch: prev_comm=a
b prev_pid=7 prev_prio=1 prev_state=S ==> next_comm=
x next_pid=9 next_prio=2
    a-12 [003] x-8       [000] d..2.     2.000000: sched_waking: comm=a-12 [003] x pid=8 prio=1 target_cpu=001
              #x-9       [000] d..2.     3.000000: sched_switch: prev_comm= ==> next_comm= prev_pid=9 prev_prio=1 prev_state=S ==> next_comm= ==> next_comm= next_pid=3 next_prio=4
   kworker/u16:2-5       [000] d..2.     4.000000: sched_waking: comm=c pid=4 prio=1 target_cpu=001
END
masked=${masked/4 lines/3 lines}
odd_names=${odd_names/-events_freezable_/}
loads odd_trace_cmd 0 "from-trace-cmd: $masked" "$odd_names" "$tools/from-trace-cmd" "$folder/odd_kernel"
loads odd_kernel 0 "record: $masked" "$odd_names" env "PYTHONPATH=$tools/../python" python3 -m histdesk.cli.kernel_text record "$folder/odd_kernel"
gives from_perf_usage 0 "" "$tools/from-perf" --help
gives from_trace_cmd_usage 0 "" "$tools/from-trace-cmd" --help
gives no_text 1 'from-perf: /none: No such file or directory' "$tools/from-perf" /none

# Two buffers, as trace-cmd prints them: a line after one of lost events has no columns for the buffer.
cat >"$folder/buffers" <<'END'
cpus=4
                    a-1     [000]     1.000000: x: top
one:                a-1     [000]     1.000000: x: one
one: CPU:1 [7 EVENTS DROPPED]
               b-2     [001]     2.000000: x: one again
     CPU:2 [EVENTS DROPPED]
               b-2     [002]     2.000000: x: top again
END
two='from-trace-cmd: * has the events of 2 buffers; --buffer takes one, such as / (the top one, 2 lines), one (2 lines)'
gives two_buffers 1 "$two" "$tools/from-trace-cmd" "$folder/buffers"
prints two_buffers ""
gives one_buffer 0 'from-trace-cmd: 7 events were lost at one place (CPU 1); lines of the trace say where' \
    "$tools/from-trace-cmd" --buffer one "$folder/buffers"
prints one_buffer '# cpus=4
a-1     [000]     1.000000: x: one
CPU:1 [LOST 7 EVENTS]
b-2     [001]     2.000000: x: one again'
gives top_buffer 0 'from-trace-cmd: some events were lost at one place (CPU 2); lines of the trace say where' \
    "$tools/from-trace-cmd" --buffer / "$folder/buffers"
prints top_buffer '# cpus=4
a-1     [000]     1.000000: x: top
CPU:2 [LOST EVENTS]
b-2     [002]     2.000000: x: top again'
gives no_buffer 1 'from-trace-cmd: * has no events of a buffer two; it has those of / (the top one, 2 lines), one (2 lines)' \
    "$tools/from-trace-cmd" --buffer two "$folder/buffers"
grep -v '^ ' "$folder/buffers" | head -n 3 >"$folder/one_buffer"
gives sole_buffer 0 'from-trace-cmd: 7 events *' "$tools/from-trace-cmd" "$folder/one_buffer"
prints sole_buffer $'# cpus=4\na-1     [000]     1.000000: x: one\nCPU:1 [LOST 7 EVENTS]'
gives sole_top 0 "$lost" "$tools/from-trace-cmd" --buffer / "$folder/trace-cmd"
gives no_word 2 'from-trace-cmd: argument --buffer: expected one argument; *' "$tools/from-trace-cmd" --buffer
gives no_option 2 'from-perf: unrecognized arguments: --buffer; *' "$tools/from-perf" --buffer one

# Files that neither of them converts, which one line says.
gzip -c "$folder/perf" >"$folder/packed.gz"
gives packed 1 'from-perf: */packed.gz is packed by gzip: unpack it first, by gzip -d' "$tools/from-perf" "$folder/packed.gz"
: >"$folder/empty"
gives empty 1 'from-trace-cmd: */empty is empty' "$tools/from-trace-cmd" "$folder/empty"
gives empty_input 1 'from-perf: standard input is empty' "$tools/from-perf" <"$folder/empty"
printf 'a 1 [000] 1.000000: x:\n\0\e' >"$folder/binary"
gives binary 1 'from-perf: */binary is neither a recording of perf nor a text' "$tools/from-perf" "$folder/binary"
gives folder 1 'from-perf: *: Is a directory' "$tools/from-perf" "$folder"
printf 'no trace %s\n' {1..300} >"$folder/prose"
gives prose 1 'from-perf: */prose is no text of perf script; line 1: not of the form *: no trace 1' "$tools/from-perf" "$folder/prose"
gives other_text 1 'from-perf: */trace-cmd is no text of perf script, but of trace-cmd report or like it; tools/from-trace-cmd *' \
    "$tools/from-perf" "$folder/trace-cmd"
gives other_text_too 1 'from-trace-cmd: */perf is no text of trace-cmd report, but of perf script or like it; tools/from-perf *' \
    "$tools/from-trace-cmd" "$folder/perf"

# Recordings, and programs that stand in for perf and trace-cmd.
printf 'PERFILE2 and more' >"$folder/perf.data"
printf '\x17\x08\x44tracing6' >"$folder/trace.dat"
gives other_recording 1 'from-perf: */trace.dat is a recording of trace-cmd, which tools/from-trace-cmd converts' \
    "$tools/from-perf" "$folder/trace.dat"
gives other_recording_too 1 'from-trace-cmd: */perf.data is a recording of perf, which tools/from-perf converts' \
    "$tools/from-trace-cmd" "$folder/perf.data"
gives recording_by_input 1 'from-perf: standard input is a recording; name its file instead' \
    "$tools/from-perf" <"$folder/perf.data"
python=$(python3 -c 'import sys; print(sys.executable)')
for name in perf:perf.data: trace-cmd:trace.dat:"$lost"; do
    IFS=: read -r tool data said <<<"$name"
    data=$folder/$data
    gives "no_$tool" 1 "from-$tool: $data is a recording, and $tool is not installed, which reads it" \
        env "PATH=$folder/none" "$python" "$tools/from-$tool" "$data"
    script "$tool" "[[ \${*: -1} == '$data' ]] && cat '$folder/$tool'"
    PATH=$folder/bin:$PATH loads "calls_$tool" 0 "$said" "$listed" "$tools/from-$tool" "$data"
    script "$tool" "head -n 4 '$folder/$tool'" 'printf "\e torn\n\n" >&2' 'exit 1'
    PATH=$folder/bin:$PATH gives "failed_$tool" 1 "from-$tool: $tool says: \\\\x1b torn
from-$tool: $tool failed on $data" "$tools/from-$tool" "$data"
    script "$tool" true
    PATH=$folder/bin:$PATH gives "silent_$tool" 1 "from-$tool: $tool printed nothing of $data" "$tools/from-$tool" "$data"
done
script perf 'echo "File perf.data not owned by current user or root (use -f to override)" >&2' 'exit 255'
PATH=$folder/bin:$PATH gives not_own 1 "from-perf: */perf.data is of $(id -un), and perf reads * copy or chown it first" \
    "$tools/from-perf" "$folder/perf.data"
# What perf says about losses is passed on; what it always says is not.
script perf "cat '$folder/perf'" "printf '%s\n' \"'trace' not valid for hardware events. Ignoring.\" Warning: \
    'Processed 9 events and lost 2 chunks!' '' >&2"
PATH=$folder/bin:$PATH gives warned 0 'from-perf: perf says: Processed 9 events and lost 2 chunks!' \
    "$tools/from-perf" "$folder/perf.data"

holds "$tests/tools/turned.py" "$tools"
holds "$tests/tools/losses_told.py" "$tools"

# ---- record: a folder stands in for tracefs, and programs called mkdir and rmdir make its instance and take it away.

tracefs=$folder/tracefs
model=$folder/instance
mkdir -p -- "$tracefs/instances" "$tracefs"/per_cpu/cpu{0,1,33,34} "$model"/{options,per_cpu/cpu0,per_cpu/cpu1}
for event in sched/sched_{waking,wakeup,wakeup_new,switch} irq/irq_handler_entry; do
    mkdir -p -- {"$tracefs","$model"}/events/"$event"
    echo 0 | tee -- {"$tracefs","$model"}/events/"$event/enable" >/dev/null
done
echo 1 | tee -- "$model"/{tracing_on,trace_clock,buffer_size_kb} >/dev/null
echo ff >"$model/tracing_cpumask"
echo 1 | tee -- "$model"/options/{latency-format,stacktrace,verbose} >/dev/null
echo 0 >"$model/options/context-info"
trace='               a-1       [000] d..2.     1.000000: x: y'
printf '%s\n' "$trace" >"$model/trace"
script mkdir "cp -r -- '$model' \"\$2\""
script rmdir "rm -rf -- '$folder/gone'" "mv -- \"\$2\" '$folder/gone'"

# counts OVERRUN COMMIT_OVERRUN DROPPED: writes the counts of two CPUs: how many events the first one has overwritten, and how
# many the second one has lost in two other ways.
counts() {
    printf '%s\n' 'entries: 3' "overrun: $1" 'commit overrun: 0' 'bytes: 99' 'dropped events: 0' 'read events: 9' \
        >"$model/per_cpu/cpu0/stats"
    printf '%s\n' 'entries: 4' 'overrun: 0' "commit overrun: $2" 'bytes: 99' "dropped events: $3" 'read events: 9' \
        >"$model/per_cpu/cpu1/stats"
}

# records WHAT STATUS ERROR WORD..: checks record's status and standard error, and that its instance is gone.
records() {
    PATH=$folder/bin:$PATH gives "${@:1:3}" "$tools/record" --tracefs "$tracefs" "${@:4}"
    is_away "$1"
}

is_away() {
    if [[ -z $(ls -- "$tracefs/instances") ]]; then
        pass
    else
        fail "$1: an instance stays"
    fi
}

# settings WHAT BUFFER CPUS EVENTS: checks what the instance was set to; EVENTS says whether each of five events is on.
settings() {
    local file text=
    for file in tracing_on trace_clock buffer_size_kb tracing_cpumask options/{latency-format,stacktrace,verbose,context-info} \
        events/sched/sched_{waking,wakeup,wakeup_new,switch}/enable events/irq/irq_handler_entry/enable; do
        text+="$(<"$folder/gone/$file") "
    done
    if [[ $text == "0 local $2 $3 0 0 0 1 $4 " ]]; then
        pass
    else
        fail "$1: settings $text"
    fi
}

# runs SIGNAL STATUS WORD..: ends record by a signal while it records, and checks its status.
runs() {
    local run try
    PATH=$folder/bin:$PATH timeout "$limit" env --default-signal=INT "$tools/record" --tracefs "$tracefs" "${@:3}" \
        >"$folder/out" 2>"$folder/err" &
    run=$!
    for ((try = 0; try < 500; try++)); do
        [[ $(cat -- "$tracefs"/instances/*/{tracing_on,events/sched/sched_switch/enable} 2>/dev/null) != $'1\n1' ]] || break
        sleep 0.02
    done
    # The process that timeout runs, which is its only child.
    kill "-$1" "$(ps -o pid= --ppid "$run")"
    wait "$run"
    if [[ $? == "$2" ]]; then
        pass
    else
        fail "$1: $(<"$folder/err")"
    fi
    is_away "$1"
}

counts 0 0 0
# A line says of each CPU that nothing is missing before its first event.
none=$'\n# CPU 0: 0 events overwritten\n# CPU 1: 0 events overwritten'
records record 0 'record: 7 events, 0 lost' 0.1
prints record "$trace$none"
settings record 16384 ff '1 1 1 1 0'
counts 2 1 5
text=$'record: 7 events, 8 lost\nrecord: CPU 0 lost 2 of 5 events\nrecord: CPU 1 lost 6 of 10 events\n'
records too_small 0 "${text}record: --buffer 32768 would have held them" 0.1
# What was dropped is missing at the end, and nothing says when the other event was lost.
lines=$'\n# CPU 0: 2 events overwritten\n# CPU 1: 0 events overwritten\nCPU:1 [LOST 5 EVENTS]\nCPU:8191 [LOST 1 EVENTS]'
prints too_small "$trace$lines"
records less_room 0 "${text}record: --buffer 128 would have held them" --buffer 64 0.1
settings less_room 64 ff '1 1 1 1 0'
counts 0 0 0
records chosen 0 'record: 7 events, 0 lost' --cpu 1,33-34 --events switch,irq:irq_handler_entry -o "$folder/chosen" 0.1
prints chosen ""
gives chosen_file 0 "" cat -- "$folder/chosen"
prints chosen_file "$trace"$'\n# CPU 1: 0 events overwritten'
settings chosen 16384 6,00000002 '0 0 0 1 1'
records command 0 $'said\nrecord: bash ended with status 3\nrecord: 7 events, 0 lost' -- bash -c 'echo said; exit 3'
prints command "$trace$none"
records command_apart 0 $'record: cat ended with status 0\nrecord: 7 events, 0 lost' -o "$folder/chosen" -- cat <<<said
prints command_apart said
gives command_file 0 "" cat -- "$folder/chosen"
prints command_file "$trace$none"
# Without Python the text is passed on as it is.
mkdir -- "$folder/few"
for name in bash mkdir rmdir cat awk sort sed sleep dirname realpath cp rm mv; do
    ln -s -- "$(PATH=$folder/bin:$PATH type -P "$name")" "$folder/few/$name"
done
gives no_python 0 'record: 7 events, 0 lost' env "PATH=$folder/few" "$(type -P bash)" "$tools/record" --tracefs "$tracefs" 0.1
prints no_python "$trace$none"
gives record_usage 0 "" "$tools/record" --help
records no_number 2 'record: SECONDS is not a number above 0: x' x
records no_time 2 'record: SECONDS is not a number above 0: 0.0' 0.0
records no_seconds 2 'record: expects one argument, SECONDS, *'
records no_command 2 'record: expects a COMMAND after --; *' --
records no_such_command 2 'record: there is no command none' -- none
records bad_room 2 'record: KIB is not a number above 0: 1M' --buffer 1M 1
records bad_option 2 'record: no such option: --all; *' --all 1
records bad_cpus 2 'record: CPUS is not a list of CPUs of this machine: 0-2' --cpu 0-2 1
records bad_events 2 'record: NAMES is not a list of events: switch,,waking' --events switch,,waking 1
records no_output 1 'record: cannot write /none/x' -o /none/x 1
gives no_tracefs 1 "record: no*" "$tools/record" --tracefs "$folder/table" 1
runs TERM 143 60
settings ended 16384 ff '1 1 1 1 0'
runs INT 0 60
prints interrupted "$trace$none"
runs INT 0 -- sleep 60
prints interrupted_command "$trace$none"
# Counts that can't be read say nothing.
mv -- "$model/per_cpu/cpu0/stats" "$folder/stats"
records no_counts 0 $'cat: */per_cpu/cpu0/stats: *\nrecord: 4 events, 0 lost' 0.1
prints no_counts "$trace"$'\n# CPU 1: 0 events overwritten'
mv -- "$folder/stats" "$model/per_cpu/cpu0/stats"
rm -- "$model/buffer_size_kb"
/bin/mkdir -- "$model/buffer_size_kb"
records no_setting 1 'record: cannot write 16384 to */buffer_size_kb' 1
rm -r -- "$tracefs/events/sched/sched_waking"
records no_event 1 'record: this kernel lacks the event sched_waking' 1
rm -r -- "$tracefs/instances"
PATH=$folder/bin:$PATH gives no_instances 1 'record: no instances in *' "$tools/record" --tracefs "$tracefs" 1

finish
