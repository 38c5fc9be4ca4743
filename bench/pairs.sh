#!/usr/bin/env bash
# pairs.sh [OPERATIONS]: times so many saves and reads (1,000,000), over 2,000 keys and with a key for each: as they are
# put in ascending order, as each is asked what it finds, and as each key is walked. They are measured against a BTreeMap
# by key of BTreeMaps by place in Rust (plain_pairs.rs), in the same run.
#
# The program, of the crate pairs/, is proved and built in a copy of the repository, which takes some minutes.
# shellcheck source-path=SCRIPTDIR
set -euo pipefail

here=$(dirname -- "$(realpath -- "${BASH_SOURCE[0]}")")
. "$here/common.sh"
. "$here/crates.sh"
ops=${1:-1000000}

measure() {
    local keys=$1 filled asked walking found walked memory
    local plain_filled plain_asked plain_walking plain_found plain_walked plain_memory
    read -r filled asked walking found walked memory \
        < <(least_columns "$folder/crates/pairs/out/pairs" "$ops" "$keys")
    read -r plain_filled plain_asked plain_walking plain_found plain_walked plain_memory \
        < <(least_columns "$folder/plain_pairs" "$ops" "$keys")
    if ((walked != ops || plain_walked != ops || found != plain_found)); then
        echo "$keys keys: FAILED: $walked and $plain_walked operations, $found and $plain_found found"
        exit 1
    fi
    awk -v ops="$ops" -v keys="$keys" -v filled="$filled" -v asked="$asked" -v walking="$walking" \
        -v memory="$memory" -v plain_filled="$plain_filled" -v plain_asked="$plain_asked" \
        -v plain_walking="$plain_walking" -v plain_memory="$plain_memory" 'BEGIN {
        printf "%d operations over %d keys, the least of some runs\n", ops, keys
        printf "  put: %.2f s, %.2f times the maps\n", filled / 1e9, filled / plain_filled
        printf "  sources: %.0f ns each, %.2f times the maps\n", asked / ops, asked / plain_asked
        printf "  walked: %.0f ns each, %.2f times the maps\n", walking / ops, walking / plain_walking
        printf "  memory: %.0f bytes each, and %.0f in the maps\n", memory * 1024 / ops, plain_memory * 1024 / ops
    }'
}

copy_crates ft_event ft_hist ft_pairs
add_crate pairs ft_event ft_hist ft_pairs anyhow
build_crate pairs 1 1
rustc -C opt-level=3 -o "$folder/plain_pairs" "$here/plain_pairs.rs"
measure 2000
measure "$ops"
