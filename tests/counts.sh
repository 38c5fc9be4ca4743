# shellcheck shell=bash disable=SC2034 # what they read
# What the tests of the programs count with; those in bash read it.

# A run that takes more seconds than this is ended, and fails.
limit=120
passed=0
failed=0
skipped=0
# A test that takes as many seconds is named at the end.
long=30
slow=()

folder=$(mktemp -d)
trap 'rm -rf -- "$folder"' EXIT

pass() {
    passed=$((passed + 1))
}

fail() {
    failed=$((failed + 1))
    printf '%s\n' "$1"
}

# skip WHAT: says what is not tried, and why.
skip() {
    skipped=$((skipped + 1))
    printf 'not tried: %s\n' "$1"
}

# python_with MODULE..: prints the first Python that has these modules: `python3`, or the system's. It fails if neither has.
python_with() {
    local python
    for python in python3 /usr/bin/python3; do
        if command -v "$python" >/dev/null && "$python" -c 'import sys; [*map(__import__, sys.argv[1:])]' "$@" 2>/dev/null; then
            echo "$python"
            return
        fi
    done
    return 1
}

# part NAME COMMAND..: runs a test whose last line has counts, such as `7 passed, 0 failed, 1 skipped` or `7 of 7 rows hold`. If
# something has failed, all that it prints is printed, otherwise only what was skipped or slow.
part() {
    local begun=$SECONDS said
    said=$("${@:2}" 2>&1 </dev/null)
    count "$1" $((SECONDS - begun)) "$said"
}

# count NAME SECONDS TEXT: counts what such a test printed, which took so long.
count() {
    local name=$1 said=$3 last left good=0 bad=1
    (($2 < long)) || slow+=("slow: $1, $2 s")
    while read -r last; do
        slow+=("${last/#slow: /slow: $1, }")
    done < <(grep '^slow: ' <<<"$said")
    last=${said##*$'\n'}
    left=$(grep -E '(^|: )(not tried|[0-9]+ skipped): ' <<<"$said")
    if [[ $last =~ ^([0-9]+)' passed, '([0-9]+)' failed'(', '([0-9]+)' skipped')?$ ]]; then
        good=${BASH_REMATCH[1]}
        bad=${BASH_REMATCH[2]}
        skipped=$((skipped + ${BASH_REMATCH[4]:-0}))
    elif [[ $last =~ ^([0-9]+)' of '([0-9]+)' '[a-z]+' hold' ]]; then
        good=${BASH_REMATCH[1]}
        bad=$((BASH_REMATCH[2] - good))
        skipped=$((skipped + $(printf %s "$left" | awk '{ all += /^[0-9]/ ? $1 : 1 } END { print all + 0 }')))
    fi
    # If nothing is counted, nothing was tried, and a line has to say why.
    ((good + bad > 0)) || [[ -n $left ]] || bad=1
    passed=$((passed + good))
    failed=$((failed + bad))
    if ((bad > 0)); then
        printf '%s: %s\n' "$name" "$said"
    elif [[ -n $left ]]; then
        printf '%s\n' "$name: ${left//$'\n'/$'\n'"$name: "}"
    fi
}

# pytest_counts PYTHON FILE..: runs the tests of these files by pytest, whose report has the counts. It prints what pytest does
# if something has failed, otherwise what was skipped, and a last line with the counts.
pytest_counts() {
    local report=$folder/report.$BASHPID.xml said status good bad left
    said=$("$1" -m pytest -q -rs --junit-xml="$report" -- "${@:2}" 2>&1 </dev/null)
    status=$?
    read -r good bad left < <("$1" -c '
import sys, xml.etree.ElementTree as trees

suites = list(trees.parse(sys.argv[1]).iter("testsuite"))
count, wrong, skipped = (sum(int(suite.get(name)) for suite in suites for name in names) for names in (
    ("tests",), ("failures", "errors"), ("skipped",)))
print(count - wrong - skipped, wrong, skipped)' "$report" 2>/dev/null)
    # It may also end without a report, or before all tests have run.
    if ((status != 0 && ${bad:-0} == 0)); then
        bad=1
    fi
    if ((${bad:-0} > 0)); then
        printf '%s\n' "$said"
    else
        sed -n 's/^SKIPPED \[\([0-9]*\)\] /\1 skipped: /p' <<<"$said"
    fi
    printf '%d passed, %d failed, %d skipped\n' "${good:-0}" "${bad:-0}" "${left:-0}"
}

# beside NAME COMMAND..: starts a test of that kind, which runs beside those that come after it.
names=()
beside() {
    local begun=$SECONDS to=$folder/beside.${#names[@]}
    {
        "${@:2}" >"$to" 2>&1 </dev/null
        echo $((SECONDS - begun)) >"$to.seconds"
    } &
    names+=("$1")
}

# Waits for the tests that `beside` has started, and counts them.
gather() {
    local at
    wait
    for at in "${!names[@]}"; do
        count "${names[at]}" "$(<"$folder/beside.$at.seconds")" "$(<"$folder/beside.$at")"
    done
    names=()
}

# holds COMMAND..: the same as part, with the name of the program.
holds() {
    part "${1##*/}" "$@"
}

# Prints the last line, with the counts, and ends the script, with status 0 if nothing has failed.
finish() {
    ((${#slow[@]} == 0)) || printf '%s\n' "${slow[@]}"
    printf '%d passed, %d failed' "$passed" "$failed"
    if ((skipped > 0)); then
        printf ', %d skipped' "$skipped"
    fi
    echo
    exit $((failed > 0))
}
