#!/usr/bin/env bash
# launchers.sh HISTDESK [HISTWATCH]: tests what the launchers say beside these programs, in a folder that stands in for the
# repository, if nothing has to be built. It prints what went wrong, and a last line with the counts.
# shellcheck disable=SC2154 # what counts.sh assigns
set -uo pipefail

tests=$(dirname -- "$(dirname -- "$(realpath -- "${BASH_SOURCE[0]}")")")
program=$(realpath -- "$1")
watching=$(realpath -- "${2:-$1}")
examples=$(realpath -- "$tests/../examples")
. "$tests/counts.sh"
. "$tests/tools/common.sh"

root=$folder/repository
launcher=$root/histdesk
mkdir -p -- "$root"/{build,tools} "$root"/crates/{histdesk,histwatch}/out "$folder/work"
cp -- "$tests/../histdesk" "$tests/../histwatch" "$root"
cp -- "$tests/../tools/words" "$root/tools"
# This build/build writes down what is to be built, and fails if the file `faulty` is there.
printf '%s\n' '#!/bin/sh' "echo \"\$*\" >'$folder/built'" "[ ! -e '$folder/faulty' ] || exit 2" >"$root/build/build"
chmod +x -- "$root/build/build"
ln -s -- "$program" "$root/crates/histdesk/out/histdesk"
ln -s -- "$watching" "$root/crates/histwatch/out/histwatch"
cd -- "$folder/work" || exit
cp -- "$examples"/wakeups.{script,trace} .
printf 'load @1\n' >load
: >empty

# tells WHAT STATUS LINES TEXT WORD..: checks the launcher's status, all that it says on standard error, and its output.
tells() {
    gives "$1" "$2" "$3" "$launcher" "${@:5}" </dev/null
    prints "$1, output" "$4"
}

# on_terminal COMMAND: runs the command on a terminal; the file `out` gets what the terminal shows.
on_terminal() {
    command script -qec "bash -c '$1'" /dev/null </dev/null | tr -d '\r' >"$folder/out"
}

# ---- arguments that the program refuses, before anything is built

for word in --help -h; do
    gives "$word" 2 $'histdesk: bad words\n\nhistdesk \\[SCRIPT \\[TRACE\\]...\\]: *Exit status: 0 *explain takes *desk is *Kit: *' \
        "$launcher" x "$word"
    prints "$word" ""
done
gives "histwatch --help" 2 $'histwatch: bad words\n\nhistdesk *' "$root/histwatch" --help
tells option 2 $'histdesk: bad words\nhistdesk: there is no option --strict; write -- before *' \
    "" load --strict wakeups.trace
on_terminal "$launcher --version; echo \$?" 
sed -i -n '1p; /^histdesk \[SCRIPT/p; $p' "$folder/out"
usage='histdesk [SCRIPT [TRACE]...]: hist triggers over the text of a tracefs trace. There are no options.'
prints "an option on a terminal" "histdesk: bad words"$'\n'"$usage"$'\n2'
if [[ -e $folder/built ]]; then
    fail "words that are refused start a build"
fi
tells "after --" 2 $'histdesk: cannot read -x\nhistdesk: -x: there is no such file' "" -- load -x

# ---- arguments that it takes

tells nothing 0 "" "$(<"$examples/wakeups.expected")" wakeups.script wakeups.trace
gives "only histdesk is built" 0 "" cat -- "$folder/built"
prints "only histdesk is built" histdesk
gives histwatch 0 "" "$root/histwatch" "$examples/changes.script" wakeups.trace
gives "only histwatch is built" 0 "" cat -- "$folder/built"
prints "only histwatch is built" histwatch
: >"$folder/faulty"
tells "not built" 2 "" "" wakeups.script wakeups.trace
rm -- "$folder/faulty"
tells "- as a TRACE" 2 $'histdesk: cannot read -\nhistdesk: - as a TRACE is the name of a file; * /dev/stdin there' \
    "" load -
gives /dev/stdin 0 "" "$launcher" load /dev/stdin <wakeups.trace
cp -- wakeups.trace ./-
tells "a file called -" 0 "" "loaded 27" load -
rm -- ./-
tells "no file" 2 $'histdesk: cannot read none\nhistdesk: none: there is no such file' "" load none
tells "no script" 2 $'histdesk: cannot read no script\nhistdesk: no\\\\ script: there is no such file' \
    "" "no script" wakeups.trace
tells "a folder" 2 $'histdesk: cannot read .\nhistdesk: . is a folder' "" load .
tells "a folder as the script" 2 $'histdesk: read failed\nhistdesk: . is a folder' "" .
cp -- wakeups.trace $'caf\351.trace'
cp -- wakeups.trace café.trace
tells "not UTF-8" 2 $'histdesk: read failed\nhistdesk: $\'caf\\\\351.trace\' is not UTF-8, *; write <(cat $\'caf*' \
    "" load $'caf\351.trace'
gives "not UTF-8, by a pipe" 0 "" "$launcher" load <(cat $'caf\351.trace')
tells UTF-8 0 "" "loaded 27" load café.trace
truncate -s 1073741825 large
tells "a large file" 2 $'histdesk: cannot read large\nhistdesk: large has 1,073,741,825 bytes, *1,073,741,824 (1 GiB);*' \
    "" load large
rm -- large

# ---- files that are no traces, by their first bytes and not by their names; and traces that are no scripts

gzip <wakeups.trace >packed
tells gzip 1 'histdesk: packed is packed by gzip; write <(zcat packed) in its place' 'refused 3: line 1 fault 1' load packed
gives "gzip, by a pipe" 0 "" "$launcher" load <(zcat packed)
cp -- wakeups.trace named.gz
tells "gzip by name" 0 "" "loaded 27" load named.gz
printf 'PERFILE2\1\0\0\0' >by-perf
tells perf.data 1 "histdesk: by-perf is a recording of perf; $root/tools/from-perf by-perf >my.trace makes *" \
    'refused 3: line 1 fault 1' load by-perf
printf '\x17\x08\x44tracing6\0' >by-trace-cmd
tells trace.dat 1 "histdesk: by-trace-cmd is a recording of trace-cmd; $root/tools/from-trace-cmd by-trace-cmd *" \
    'refused 3: line 1 fault 1' load by-trace-cmd
printf '%s\n' '    perf 25692 [000]  3752.816376132: sched:sched_waking: comm=a pid=18 prio=0 target_cpu=0' >printed-by-perf
tells "perf script" 1 "histdesk: printed-by-perf is what perf script printed; $root/tools/from-perf *" \
    'refused 3: line 1 fault 1' load printed-by-perf
printf '%s\n' 'cpus=4' '  a-1  [000]  1.000000000: sched_waking: comm=a pid=18 prio=0 target_cpu=000' >reported
tells "trace-cmd report" 1 "histdesk: reported is what trace-cmd report printed; $root/tools/from-trace-cmd *" \
    'refused 3: line 1 fault 1' load reported
# In the script's place they are refused once, and nothing is run.
tells "perf.data as the script" 2 "histdesk: by-perf is a recording of perf; *" "" by-perf
looks='histdesk: wakeups.trace looks like a trace, and the script comes before it'
waits="; $root/tools/waits wakeups.trace needs no script"
tells "a trace as the script" 2 "$looks: $launcher SCRIPT wakeups.trace$waits" "" wakeups.trace
tells "in the wrong order" 2 "$looks: $launcher load wakeups.trace$waits" "" wakeups.trace load
tail -n +12 wakeups.trace >headless
tells "a trace without a header" 2 'histdesk: headless looks like a trace, *' "" headless
{ head -n 11 wakeups.trace && echo 'bash-1  0d..1    1us : sched_waking'; } >other-layout
tells "a trace of another layout" 2 'histdesk: other-layout looks like a trace, *' "" other-layout
looks='histdesk: /dev/stdin looks like a trace, *'
gives "a trace as standard input" 2 "$looks" "$launcher" <wakeups.trace
prints "a trace as standard input" ""
gives "a trace as -" 2 "$looks" "$launcher" - load <wakeups.trace
gives "a script as standard input" 0 "" "$launcher" - wakeups.trace <load
prints "a script as standard input" "loaded 27"
printf '%s\n' '# tracer: nop' 'insert a-1 [000] 1.000000: sched_waking: comm=w pid=42 prio=120 target_cpu=000' >inserts
gives "a script of trace lines" 0 "" "$launcher" inserts
gives "a script with a trace's header" 0 "" "$launcher" <(head -n 11 wakeups.trace && cat load) wakeups.trace
{ head -n 11 wakeups.trace && cat load; } >with-header
tells "a script with a trace's header" 0 "" "loaded 27" with-header wakeups.trace
on_terminal "$launcher wakeups.trace; echo \$?"
prints "on a terminal" "histdesk: wakeups.trace looks like a trace, and the script comes before it: $launcher SCRIPT wakeups.trace$waits
2"
on_terminal "$launcher"
prints "typed on a terminal" "histdesk: reads commands from the terminal until Ctrl-D; $root/tools/desk has a prompt, with help"

# ---- a pipe that nobody reads any more: on a terminal the signal ends the launcher, as it ends other programs, and elsewhere
# the launcher ends as the program does

{ cat load && yes 'list 0' | head -n 20000; } >many
on_terminal "$launcher many wakeups.trace | head -n 1; echo \${PIPESTATUS[0]}"
prints "a closed pipe on a terminal" $'loaded 27\n141'
on_terminal "$launcher load none | cat; echo \${PIPESTATUS[0]}"
prints "a fault on a terminal" $'histdesk: cannot read none\nhistdesk: none: there is no such file\n2'
on_terminal "$launcher wakeups.script wakeups.trace | cat; echo \${PIPESTATUS[0]}"
prints "a pipe on a terminal" "$(<"$examples/wakeups.expected")"$'\n0'
"$launcher" many wakeups.trace 2>"$folder/err" </dev/null | head -n 1 >"$folder/out"
echo "${PIPESTATUS[0]} $(<"$folder/err")" >>"$folder/out"
prints "a closed pipe" $'loaded 27\n2 histdesk: write failed'

# ---- the program takes the launcher's place, so that signals and statuses are its own

mkfifo typed
"$launcher" - <typed >/dev/null &
run=$!
exec 3>typed
for ((try = 0; try < 500; try++)); do
    [[ /proc/$run/exe -ef $program ]] && break
    sleep 0.02
done
if ((try < 500)); then
    pass
else
    fail "the launcher stays: $(realpath "/proc/$run/exe")"
fi
kill -TERM "$run"
wait "$run"
status=$?
exec 3>&-
if [[ $status == 143 ]]; then
    pass
else
    fail "ended by a signal: status $status"
fi

finish
