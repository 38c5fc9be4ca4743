#!/usr/bin/env bash
# hostile.sh [HISTDESK [PLAINDESK [ASKAGAIN [HISTWATCH]]]]: tests a part of the hostile bytes, for which HISTDESK and
# PLAINDESK print what the plain model does, and what many keys cost HISTDESK. program.sh says more about these arguments.
set -uo pipefail

tests=$(dirname -- "$(dirname -- "$(realpath -- "${BASH_SOURCE[0]}")")")
. "$tests/counts.sh"
. "$tests/program/common.sh"

holds "$tests/program/keys.py" "$program"
holds "$tests/program/hostile.py" --part 1 "$program" ${plaindesk:+"$plaindesk"}

finish
