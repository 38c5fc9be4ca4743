#!/usr/bin/env bash
# building.sh: tests what build/build proves, says and leaves, in a repository of five crates, with programs that stand in for
# the kit's. It prints what went wrong, and a last line with the counts.
# shellcheck source-path=SCRIPTDIR disable=SC2016,SC2154,SC2317 # the programs' own $; what counts.sh assigns; what others call
set -uo pipefail

tests=$(dirname -- "$(dirname -- "$(realpath -- "${BASH_SOURCE[0]}")")")
. "$tests/counts.sh"
. "$tests/tools/common.sh"

root=$folder/repository
left=$root/build/out
mkdir -p -- "$root"/crates/{ft_low,ft_desk,histdesk,histwatch,ft_c}/src "$folder"/{bin,toolchain/bin}
tar -C "$tests/.." --exclude=out -cf - build helpers | tar -C "$root" -xf -
printf '%s\n' 'ft_low:' 'ft_desk: ft_low' 'histdesk: ft_desk' 'histwatch: ft_desk' 'ft_c static: ft_desk' >"$root/crates.txt"
printf '%s\n' 'ft_low 320' 'ft_desk 150' 'ft_c 140' 'histwatch 120' 'histdesk 50' >"$root/build/proof_seconds"
echo one >"$folder/KIT-ID"
export STAND_IN=$folder PATH=$folder/bin:$PATH

# What stands in for the kit: the prover writes down which crates it is given, and makes what it is asked for. If the file
# `slow` is there, it writes down its processes too and doesn't end; for the crate that `faulty` names it makes nothing.
script rt 'echo stand-in'
script rattle 'name=$3; echo "$name" >>"$STAND_IN/proved"' \
    'if [[ -e $STAND_IN/slow ]]; then sleep 1000 & echo "$$ $!" >>"$STAND_IN/processes"; wait; fi' \
    'if [[ $name == "$(cat "$STAND_IN/faulty" 2>/dev/null)" ]]; then echo "not so"; exit 1; fi' \
    'while [[ $1 != -o ]]; do shift; done; touch -- "$2"'
script rattle-link 'while [[ $1 != -o ]]; do shift; done; touch -- "$2"; chmod +x -- "$2"'
cp -- "$folder/bin/rattle-link" "$folder/toolchain/bin/ld.lld"
script llvm-ar 'touch -- "$2"'
mv -- "$folder/bin/llvm-ar" "$folder/toolchain/bin"

# builds WHAT STATUS ERROR CRATE..: checks a build's status and what it says, and that it proved exactly these crates. It builds
# all, or what is in `asked`.
asked=()
builds() {
    : >"$folder/proved"
    gives "${@:1:3}" "$root/build/build" "${asked[@]}"
    sort -- "$folder/proved" >"$folder/out"
    prints "$1, proved" "$(printf '%s\n' "${@:4}")"
}

# Succeeds if none of the prover's processes runs any more, now or some seconds later.
are_ended() {
    local processes
    processes=$(tr -s ' \n' ',' <"$folder/processes")
    for ((try = 0; try < 100; try++)); do
        ps -o stat= -p "${processes%,}" | grep -qv '^Z' || return 0
        sleep 0.05
    done
    return 1
}

# eventually WHAT COMMAND..: checks that the command succeeds, now or some seconds later.
eventually() {
    for ((try = 0; try < 200; try++)); do
        if "${@:2}"; then
            pass
            return
        fi
        sleep 0.05
    done
    fail "$1: not within seconds"
}

# Begins a build that doesn't end, and sets `build`.
begin() {
    : >"$folder/processes"
    set -m
    # Whoever runs this script may have it ignore some signals.
    env --default-signal "$root/build/build" 2>/dev/null &
    build=$!
    set +m
    eventually "a build begins" test -s "$folder/processes"
}

# are STATE: succeeds if ps shows the build and the prover's processes in this state.
are() {
    local processes
    processes=$build,$(tr -s ' \n' ',' <"$folder/processes")
    [[ $(ps -o stat= -p "${processes%,}" | cut -c 1 | sort -u) == "$1" ]]
}

# ends SIGNAL: checks that a build that gets the signal is ended by it, with all that it started, and leaves no folder of its
# own.
ends() {
    local status
    begin
    kill -s "$1" "$build"
    wait "$build" 2>/dev/null
    status=$?
    if [[ $status == $((128 + $(kill -l "$1"))) && -s $folder/processes && -z $(find "$left" -name 'build.*') ]] && are_ended; then
        pass
    else
        fail "SIG$1: status $status, left: $(ls -- "$left")"
    fi
}

building='build: building histdesk, histwatch and the library'
first='
build: proving takes this time, and the kit builds nothing unproved; later builds prove only what changed and what depends on it
build: packages need no kit and no build: build/package makes them on a machine that has built (README.md, Install)'
all=(ft_c ft_desk ft_low histdesk histwatch)
above=(ft_c ft_desk histdesk histwatch)

# A program needs only the crates below it, and the rest is built when it is asked for.
asked=(histdesk)
builds first 0 "build: building histdesk, all 3 crates, which takes about [1-9]* minutes; see $left/log$first"$'\n*' \
    ft_desk ft_low histdesk
head -n 2 -- "$folder/proved" >"$folder/out"
prints "first, the lower ones first" $'ft_low\nft_desk'
builds nothing 0 ""
asked=()
builds "the rest" 0 "$building, 2 of 5 crates, which takes about [1-9] minutes; see *" ft_c histwatch
builds "nothing is left" 0 ""
# What is compiled from C, if a compiler and the headers are there: a fault in it keeps nothing else from being built.
compiled() {
    gives "$1" 0 "" ls -- "$root/helpers/out/$1"
    echo int >>"$root/helpers/$2"
    builds "$1, a fault" 0 "build: helpers/$2 is not compiled, and the tools do without it:"$'\n*'
    gives "$1, gone" 2 "*" ls -- "$root/helpers/out/$1"
    cp -- "$tests/../helpers/$2" "$root/helpers"
    builds "$1, no fault" 0 ""
}
if echo '#include <perf/perf_dlfilter.h>' | cc -E -o /dev/null -x c - 2>/dev/null; then
    compiled perf_filter.so perf_filter.c
else
    skip "perf's filter: no compiler, or no header of perf"
fi
if command -v cc >/dev/null && pkg-config libtracecmd 2>/dev/null; then
    compiled trace_cmd_lines trace_cmd_lines.c
else
    skip "the program for trace-cmd: no compiler, or no headers of its libraries"
fi
touch -- "$root/crates/ft_desk/src/lib.rt"
builds "a source" 0 "$building, 4 of 5 crates, which takes about [1-9] minutes; see *" "${above[@]}"
rm -- "$root/crates/histwatch/out/histwatch"
builds "no program" 0 "$building, 1 of 5 crates, which takes about 2 minutes; see $left/log
build: 4 of 5 crates proved, about 2 minutes left; proving histwatch since ??:??:??" histwatch
touch -- "$root/crates.txt"
builds crates.txt 0 "$building, all 5 crates, which takes about [1-9]* minutes; see $left/log$first"$'\n*' "${all[@]}"
touch -- "$root/crates.txt"
builds "crates.txt again" 0 "$building, all 5 crates, which took 0:0? minutes the last time; see $left/log
build: 0 of *" "${all[@]}"
# The logic that the proofs are for needs no remark, another one does.
logic=$(sed -n 's/^LOGIC = "\(.*\)"$/\1/p' "$root/build/recipes.py")
echo "stand-in logic $logic" >"$folder/KIT-ID"
touch -- "$root/crates/histdesk/src/other.rt"
builds "the logic" 0 "$building, all 5 crates, *" "${all[@]}"
echo "stand-in logic 0123abc" >"$folder/KIT-ID"
touch -- "$root/crates/histdesk/src/other.rt"
builds "another logic" 0 "build: the logic of this kit is 0123abc, and the proofs were made for $logic: *"$'\n'"$building, *" \
    "${all[@]}"
builds "another logic, nothing to build" 0 ""
echo two >"$folder/KIT-ID"
builds "another kit" 0 ""
touch -- "$root/crates/ft_low/src/lib.rt"
builds "another kit, a source" 0 "$building, all 5 crates, *" "${all[@]}"
echo ft_desk >"$folder/faulty"
touch -- "$root/crates/ft_low/src/lib.rt"
builds "a fault" 2 $'build: building *\nnot so\nbuild: not built: ft_desk is not proved' ft_desk ft_low
rm -- "$folder/faulty"
builds "after a fault" 0 "$building, 4 of 5 crates, *" "${above[@]}"
touch -- "$root/crates/ft_low/src/lib.rt"
: >"$folder/slow"
ends TERM
ends INT
ends HUP

# Ctrl-Z stops the build with all its processes.
begin
kill -s TSTP "$build"
eventually "a build is held" are T
kill -s CONT "$build"
eventually "a build goes on" are S
# Another build waits until the prover of a build that was killed has ended, and removes what is left of it.
"$root/build/build" histdesk 2>"$folder/second" &
second=$!
eventually "a second build begins" test -s "$folder/second"
rm -- "$folder/slow"
kill -s KILL "$build"
wait "$build" 2>/dev/null
eventually "what was killed is left" test -n "$(find "$left" -name 'build.*')"
xargs kill <"$folder/processes"
if wait "$second"; then
    pass
else
    fail "a second build: status $?"
fi
has "a second build" "$folder/second" 'build: waits for another build to end' 'build: building histdesk, all 3 crates, .*'
eventually "it is removed" test -z "$(find "$left" -name 'build.*')"
# The longest chain of crates is built first. On one processor, the crates take the sum of their times; what stands in for the
# prover takes almost no time, but the build expects at least half of that for the rest.
: >"$folder/proved"
touch -- "$root/crates.txt"
rm -- "$left"/took.*
gives "one processor" 0 "$building, all 5 crates, which takes about 13 minutes; see $left/log$first
build: 0 of 5 crates proved, about 13 minutes left; proving ft_low since ??:??:??
build: 1 of 5 crates proved, about 4 minutes left; proving ft_desk since ??:??:??
build: 2 of 5 crates proved, about 3 minutes left; proving ft_c since ??:??:??
build: 3 of 5 crates proved, about 1 minute left; proving histwatch since ??:??:??
build: 4 of 5 crates proved, less than a minute left; proving histdesk since ??:??:??" \
    taskset -c "$(taskset -cp $$ | sed 's/.*: \([0-9]*\).*/\1/')" "$root/build/build"
tr '\n' ' ' <"$folder/proved" >"$folder/out"
prints "one processor" "ft_low ft_desk ft_c histwatch histdesk "
# On a terminal, one line says how far the build is, and never wraps.
touch -- "$root/crates/histwatch/src/lib.rt"
gives "a terminal" 0 "" script -qec "stty cols 40; '$root/build/build' histwatch" /dev/null
tr '\r' '\n' <"$folder/out" | sed -n 's/^.\[K\(build\)/\1/p' >"$folder/err"
mv -- "$folder/err" "$folder/out"
prints "a terminal" 'build: 2 of 3 crates proved, about 2 mi'
rm -- "$folder/bin/rt"
touch -- "$root/crates.txt"
PATH=/usr/bin:/bin gives "no kit" 2 "build: needs the Rattle kit's rt on the PATH to build" "$root/build/build"

# What the tests need: a folder with few programs stands in for a machine, and a script for its apt-get, which has no cpio.
mkdir -- "$folder/few"
ln -s -- "$(type -P bash)" "$(type -P timeout)" "$folder/few"
script apt-get 'case $* in' '*" -s install cpio") exit 1 ;;' '*" install q"*)' \
    '/usr/bin/ln -s -- "$0" "${0%/*}/qemu-system-x86_64"' '/usr/bin/ln -s -- "$0" "${0%/*}/busybox" ;;' 'esac'
mv -- "$folder/bin/apt-get" "$folder/few"
gives "needs --missing" 1 "" env PATH="$folder/few" "$root/build/needs" --missing by-hand
prints "needs --missing" "apt-get install qemu-system-x86 busybox-static cpio"
if ((EUID == 0)); then
    gives "needs --install" 1 $'needs: installing qemu-system-x86 busybox-static\nneeds: missing: cpio' \
        env PATH="$folder/few" "$root/build/needs" --install by-hand
else
    skip "installing what the tests need: not root"
fi
ln -s -- /bin/true "$folder/few/cpio"
ln -sf -- /bin/true "$folder/few/qemu-system-x86_64"
ln -sf -- /bin/true "$folder/few/busybox"
gives "needs --install, nothing" 0 "" env PATH="$folder/few" "$root/build/needs" --install by-hand
gives "needs for nothing" 2 "needs: all is none of build tests tools bench by-hand; --help says more" "$root/build/needs" all

finish
