#!/usr/bin/env bash
# program.sh [HISTDESK [PLAINDESK [ASKAGAIN [HISTWATCH]]]]: runs a program as a user would, by scripts of one subject
# each, program/*.sh, which take the same arguments and can be run by themselves: the rows, the examples, arguments and
# files, streams, limits, hostile bytes, growths of memory that are refused, and which rows edits change; then the launchers
# (tools/launchers.sh), how they build (tools/building.sh), how long they say that takes (tools/estimates.py), how mistakes are
# refused (tools/editing.py), the tools around it (tools/tools.sh) and the documents. PLAINDESK, if it is given, runs the rows,
# the full desks and the hostile bytes too; ASKAGAIN runs the rows in memory, and asks a second time for what found no memory,
# in some of them; HISTWATCH prints which rows edits change. Without arguments, it runs the launcher and those of the other
# three that are built. It prints what went wrong, what was skipped and why, and a last line with the counts.
set -uo pipefail

tests=$(dirname -- "$(realpath -- "${BASH_SOURCE[0]}")")
. "$tests/counts.sh"
. "$tests/program/common.sh"

for subject in rows examples words streams limits hostile growths changes; do
    holds "$tests/program/$subject.sh" "$histdesk" "$plaindesk" "$askagain" "$histwatch"
done
holds "$tests/tools/launchers.sh" "$program" ${histwatch:+"$histwatch"}
holds "$tests/tools/building.sh"
beside editing "$tests/tools/editing.py"
holds "$tests/tools/estimates.py"
holds "$tests/tools/tools.sh" "$program" ${histwatch:+"$histwatch"}
holds "$tests/documents/crates.py"
holds "$tests/documents/proof.py"
holds "$tests/documents/reference.py" "$histdesk"
holds "$tests/documents/commands.py" "$histdesk"
holds "$tests/documents/options.py"
holds "$tests/documents/pages.py"
holds "$tests/documents/python_names.py"

gather
finish
