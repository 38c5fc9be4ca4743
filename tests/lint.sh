#!/usr/bin/env bash
# lint.sh: checks the scripts of this repository with others' programs: shellcheck for all that is bash; flake8, or pyflakes
# if there is no flake8, for all that is Python, which must have black's form; and mypy for the Python packages and for build,
# whose types are strict. .shellcheckrc, .flake8 or the line itself says which findings are left out. It prints what was
# found, what was not tried since a program is missing, and a last line with the counts.
# shellcheck disable=SC2154 # what counts.sh assigns
set -uo pipefail

cd -- "$(dirname -- "$(realpath -- "${BASH_SOURCE[0]}")")/.." || exit
. tests/counts.sh

# The scripts, by their names or first lines, including those that aren't committed yet.
shells=()
pythons=()
while IFS= read -r -d '' file; do
    [[ -f $file ]] || continue
    first=
    IFS= read -r first <"$file"
    case $file:$first in
        *.py:* | *:'#!'*python*) pythons+=("$file") ;;
        *.sh:* | *:'#!'*sh | *:'# shellcheck shell='*) shells+=("$file") ;;
    esac
done < <(git ls-files -z --cached --others --exclude-standard -- . ':!crates' ':!tests/rows' ':!examples')

# lint NAME COMMAND..: starts this program, which runs beside the others.
names=()
runs=()
lint() {
    names+=("$1")
    timeout 600 "${@:2}" >"$folder/$1" 2>&1 </dev/null &
    runs+=("$!")
}

# there PROGRAM WHAT: succeeds if the program is installed; otherwise it says that WHAT isn't tried.
there() {
    command -v "$1" >/dev/null || {
        skip "$2, since $1 is missing"
        return 1
    }
}

if there shellcheck "scripts in bash"; then
    lint shellcheck shellcheck -- "${shells[@]}"
fi
if command -v flake8 >/dev/null; then
    lint flake8 flake8 -- "${pythons[@]}"
elif command -v pyflakes3 >/dev/null; then
    lint pyflakes3 pyflakes3 "${pythons[@]}"
else
    there flake8 "faults in Python"
fi
# Each year's black has a form of lines of its own.
if [[ $(black --version 2>/dev/null) != "black, 23."* ]]; then
    skip "the form of Python, since there is no black 23"
else
    BLACK_CACHE_DIR=$folder/black lint black black -q -l 128 --diff --check -- "${pythons[@]}"
fi
if there mypy "types in Python"; then
    lint mypy mypy --strict --config-file=python/pyproject.toml --cache-dir="$folder/types" \
        --scripts-are-modules python/histdesk build/*.py build/{build,crates,edits,library,schema,wheel}
fi
for at in "${!names[@]}"; do
    if wait "${runs[at]}"; then
        pass
    else
        fail "${names[at]}: status $?"
        cat -- "$folder/${names[at]}"
    fi
done

finish
