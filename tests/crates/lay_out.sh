#!/usr/bin/env bash
# lay_out.sh FOLDER: makes a repository in FOLDER, of the sources of all crates and of the crate of tests, ft_tests. It isn't
# one of this repository's crates because the gate would prove it; and the gate refuses a file that ends in .rt and is in no
# crate, so here its files end in .in too.
set -euo pipefail

tests=$(dirname -- "$(realpath -- "${BASH_SOURCE[0]}")")
mkdir -p -- "$1/crates"
to=$(realpath -- "$1")
cat -- "$tests/../../crates.txt" "$tests/crates.txt.in" >"$to/crates.txt"
cd -- "$tests/../../crates"
cp -r --parents -- */src "$to/crates"
cd -- "$tests"
find src -name '*.in' | while read -r file; do
    install -D -m 644 -- "$file" "$to/crates/ft_tests/${file%.in}"
done
