#!/usr/bin/env bash
# fuzz_lines.sh [SECONDS [SEED]]: compares how the library and a plain model (fuzz_lines.rs) read lines that are changed at
# random, hundreds of thousands a second, from the examples and a made trace. It prints how many lines were events, skipped or
# had which fault, or the first line that they read differently. HISTDESK_LIBRARY names another library than the one that
# build/build makes.
set -euo pipefail

root=$(dirname -- "$(dirname -- "$(realpath -- "${BASH_SOURCE[0]}")")")
folder=$(mktemp -d)
trap 'rm -rf -- "$folder"' EXIT
if [[ -z ${HISTDESK_LIBRARY:-} ]]; then
    "$root/build/build" library
fi
library=$(realpath -- "${HISTDESK_LIBRARY:-$root/crates/ft_c/out/libhistdesk.so.0}")
python3 "$root/bench/make_trace.py" 5000 >"$folder/trace"
rustc --edition 2021 -C opt-level=3 -C link-arg="$library" -o "$folder/fuzz_lines" "$root/tests/fuzz_lines.rs"
LD_LIBRARY_PATH=$(dirname -- "$library") "$folder/fuzz_lines" "${1:-60}" "${2:-1}" "$folder/trace" "$root"/examples/*.trace
