#!/usr/bin/env bash
# all.sh: runs all tests: those of the crates by their sources, crates.sh, and those of the programs and of the library that
# stand in this checkout's folders out, program.sh and library.sh, side by side. It prints what went wrong, what was skipped and
# why, and a last line with the counts of all three.
set -uo pipefail

tests=$(dirname -- "$(realpath -- "${BASH_SOURCE[0]}")")
crates=$(realpath -- "$tests/../crates")
. "$tests/counts.sh"

histdesk=$crates/histdesk/out/histdesk
histwatch=$crates/histwatch/out/histwatch
beside crates "$tests/crates.sh"
beside program "$tests/program.sh" "$histdesk" "$tests/program/plaindesk" "$crates/askagain/out/askagain" "$histwatch"
beside library "$tests/library.sh" "$crates/ft_c/out/libhistdesk.so.0" "$histdesk" "$histwatch"
gather
finish
