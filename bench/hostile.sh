#!/usr/bin/env bash
# hostile.sh [PROGRAM]: prints how the time that hostile input takes grows as the input gets twice and four times as large. It
# is processor time, the least of some runs, less what the same desk takes without that input. Each line has the size at
# first, and the times as ratios to the first; what grows in proportion has 1, 2 and 4.
# shellcheck source-path=SCRIPTDIR
set -euo pipefail

here=$(dirname -- "$(realpath -- "${BASH_SOURCE[0]}")")
HISTDESK=${1:-${HISTDESK:-}}
. "$here/common.sh"
take_program
take_large_pages
python3 "$here/hostile.py" "$(realpath -- "$histdesk")" "$folder"
