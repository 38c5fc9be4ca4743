#!/usr/bin/env bash
# tables.sh [HITS]: times a table of so many hits (1,000,000), over 2,000 keys and with a key for each hit:
# as it is filled in ascending order, and as a hit of a new key comes before all others and goes again.
# It is measured against one BTreeMap and one Vec in Rust (plain_map.rs), in the same run.
#
# The program, of the crate tables/, is proved and built in a copy of the repository, which takes some minutes.
# shellcheck source-path=SCRIPTDIR
set -euo pipefail

here=$(dirname -- "$(realpath -- "${BASH_SOURCE[0]}")")
. "$here/common.sh"
. "$here/crates.sh"
hits=${1:-1000000}

measure() {
    local keys=$1 edits=$2 filled edited held memory plain_filled plain_edited plain_held plain_memory shifted _
    read -r filled edited held memory < <(least_columns "$folder/crates/tables/out/tables" "$hits" "$keys" "$edits")
    read -r plain_filled plain_edited plain_held plain_memory shifted _ \
        < <(least_columns "$folder/plain_map" "$hits" "$keys" "$edits")
    if ((held != hits || plain_held != hits)); then
        echo "$keys keys: FAILED: $held and $plain_held hits"
        exit 1
    fi
    awk -v hits="$hits" -v keys="$keys" -v edits="$edits" -v filled="$filled" -v edited="$edited" \
        -v memory="$memory" -v plain_filled="$plain_filled" -v plain_edited="$plain_edited" \
        -v shifted="$shifted" -v plain_memory="$plain_memory" 'BEGIN {
        printf "%d hits over %d keys, the least of some runs\n", hits, keys
        printf "  filled: %.2f s, %.2f times the map\n", filled / 1e9, filled / plain_filled
        printf "  a key comes first and goes: %.1f us, 1/%.0f of the filling, %.1f times in a vector, %.0f in the map\n",
            edited / edits / 1e3, filled / (edited / edits), edited / shifted, edited / plain_edited
        printf "  memory: %.0f bytes a hit, and %.0f in the map\n", memory * 1024 / hits, plain_memory * 1024 / hits
    }'
}

copy_crates ft_event ft_hist ft_table
add_crate tables ft_event ft_hist ft_table anyhow
build_crate tables 1 1 1
rustc -C opt-level=3 -o "$folder/plain_map" "$here/plain_map.rs"
measure 2000 2000
measure "$hits" 50
