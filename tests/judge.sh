#!/usr/bin/env bash
# judge.sh [--minutes N] [--seed N] [--keep FOLDER] [RECORDING..]: records this machine in the ways that people do, under loads of
# its own, and holds the waits that are reported as sure against the kernel's own account of how long each task waited, and
# against its reports of who ran (judge/verdict.py). A sure wait must not say more than the kernel, and of a recording without
# losses nearly all waits must be sure. It needs root, perf, tracefs, and the library, that of $HISTDESK_LIBRARY or the one that
# is built; trace-cmd and control groups for some recordings. What is missing is not tried, and a line says so. It takes less
# than a minute; with --minutes, it goes on for so long with recordings of any kind under any load. --keep leaves the recordings
# there that fail; if such recordings are named, they are judged again, and nothing is recorded. It prints a line for each
# recording, what went wrong, and a last line with the counts.
# shellcheck disable=SC2154 # what counts.sh assigns
set -uo pipefail

tests=$(dirname -- "$(realpath -- "${BASH_SOURCE[0]}")")
tracefs=/sys/kernel/tracing
. "$tests/counts.sh"

not_tried() {
    skip "the waits beside the kernel's account: $1"
    finish
}

[[ $EUID == 0 ]] || not_tried "not root"
command -v perf >/dev/null || not_tried "perf is missing"
# A kernel that keeps no account shows zeros.
{ read -r ran _ <"/proc/$$/schedstat" && ((ran > 0)); } 2>/dev/null || not_tried "this kernel keeps none"
python=$(python_with numpy) || not_tried "no Python has numpy"
PYTHONPATH=$tests/../python "$python" -Bc 'import histdesk; histdesk.Desk()' 2>"$folder/said" ||
    not_tried "$(grep -m 1 Error: "$folder/said")"

# tracefs is mounted for the recorders only, if it isn't there.
# shellcheck disable=SC2016 # the other bash expands it
unshare -m bash -c '[[ -d $1/instances ]] || mount -t tracefs nodev "$1" || exit 99; exec "${@:2}"' judge.sh "$tracefs" \
    "$python" -B "$tests/judge/judge.py" "$@"
status=$?
((status != 99)) || not_tried "no tracefs at $tracefs"
exit "$status"
