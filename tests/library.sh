#!/usr/bin/env bash
# library.sh LIBRARY HISTDESK HISTWATCH: tests the library, libhistdesk.so.0 with the libhistdesk.a beside it, as its users
# have it: from C (library/c_library.sh); from Python with the tools over it (library/python_*.py, by pytest), by the python3 on
# the PATH and by the system's, if they have numpy and pytest; the page of tools/view in a browser (page/page.py); and installed
# with the programs (tools/install.sh) and in packages (tools/packages.sh). The scripts that all of this stands on are checked
# too (lint.sh). Most of this runs side by side, but what records the machine runs one after the other. It prints what went
# wrong, what was skipped and why, and a last line with the counts.
# shellcheck disable=SC2154 # what counts.sh assigns
set -uo pipefail

tests=$(dirname -- "$(realpath -- "${BASH_SOURCE[0]}")")
library=$(realpath -- "$1")
histdesk=$(realpath -- "$2")
histwatch=$(realpath -- "$3")
export HISTDESK_LIBRARY=$library HISTDESK=$histdesk
. "$tests/counts.sh"

# Random scripts, each with what the program prints for it.
for ((seed = 41; seed <= 50; seed++)); do
    row=$folder/rows/mixed_$seed
    mkdir -p -- "$row"
    python3 "$tests/model/random_script.py" 60 60 "$seed" "$row"
    "$histdesk" "$row/script" "$row"/trace? >"$row/expected" </dev/null
    echo $? >"$row/status"
done
export HISTDESK_ROWS=$folder/rows

beside "from C" "$tests/library/c_library.sh" "$library" "$histdesk"

# The package needs numpy. install.sh shows what the tools do with a Python without it.
pythons=()
for python in python3 /usr/bin/python3; do
    command -v "$python" >/dev/null || continue
    [[ ${#pythons[@]} == 0 || ! $python -ef $(command -v "${pythons[0]}") ]] || continue
    "$python" -c 'import numpy' 2>/dev/null || continue
    if ! "$python" -c 'import pytest' 2>/dev/null; then
        skip "the package by $python, which has no pytest"
    else
        pythons+=("$python")
    fi
done
if ((${#pythons[@]} == 0)); then
    skip "the package, since no Python has numpy and pytest"
fi
for python in "${pythons[@]}"; do
    beside "from $python" pytest_counts "$python" "$tests/library"
    beside "recipes from $python" "$python" "$tests/documents/recipes.py" "$histdesk" "$histwatch"
    beside "documents by $python" "$python" "$tests/documents/sessions.py" "$histdesk" "$histwatch"
done
python=python3
if ((${#pythons[@]} > 0)); then
    python=${pythons[-1]}
    beside "README with a bare Python" "$python" "$tests/documents/sessions.py" --bare "$histdesk" "$histwatch" README.md
    beside "the page" pytest_counts "$python" "$tests"/page/{page,page_answers,page_keys,page_looks,timeline_page}.py
fi
beside scripts "$tests/lint.sh"
part recorded "$tests/tools/recorded.sh" "$tests/../tools"
part "perf's filter" "$python" "$tests/tools/filtered.py" "$tests/../tools"
part "kinds of files" "$python" "$tests/tools/kinds.py"
part "the judge" "$python" "$tests/judge/planted.py"
part "turned quickly" "$python" "$tests/tools/quickly.py" "$tests/../tools"
part installed "$tests/tools/install.sh" "$histdesk" "$histwatch" "$library"
part packages "$tests/tools/packages.sh" "$histdesk" "$histwatch" "$library"
gather

finish
