#!/usr/bin/env bash
# crates.sh: runs the tests of the crates (tests/crates), which are compiled and not proved. It prints which tests
# failed, what `rt try` printed about them, which files aren't in the layout of `rt fmt`, and a last line with the counts.
# shellcheck disable=SC2154 # what counts.sh assigns
set -uo pipefail

tests=$(dirname -- "$(realpath -- "${BASH_SOURCE[0]}")")
. "$tests/counts.sh"

if ! command -v rt >/dev/null; then
    skip "the tests of the crates, since rt is missing"
    finish
fi

"$tests/crates/lay_out.sh" "$folder" || exit
cd -- "$folder/crates/ft_tests" || exit
written=$(grep -rc '^ *#\[test\]' src | awk -F : '{ all += $NF } END { print all + 0 }')

said=$(rt try --test --seconds "$limit" 2>&1 </dev/null)
status=$?
while read -r _ name _ result; do
    if [[ $result == ok ]]; then
        pass
    else
        fail "$name: $result"
    fi
done < <(grep -E '^test \S+ \.\.\. ' <<<"$said")
# A test that is not run, for example one in a file that no other file names, leaves no trace but this one.
((passed + failed == written)) || fail "of $written tests, $((passed + failed)) were run"
((status == 0 || failed > 0)) || fail "rt try: status $status"
((failed == 0)) || grep -v '^test .* \.\.\. ok$' <<<"$said"

rt fmt >/dev/null
while read -r file; do
    cmp -s -- "$file" "$tests/crates/$file.in" || fail "$file.in: not in the layout of rt fmt"
done < <(find src -name '*.rt')

finish
