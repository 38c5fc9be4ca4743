#!/usr/bin/env bash
# mixed.sh [COMMANDS [EVENTS [SEEDS]]]: runs random scripts of COMMANDS edits and answers (2,000) over EVENTS events (1,000),
# for SEEDS seeds (3), through the built program and through a plain model in Python: both must print the same bytes.
set -euo pipefail

tests=$(dirname -- "$(dirname -- "$(realpath -- "${BASH_SOURCE[0]}")")")
commands=${1:-2000}
events=${2:-1000}
seeds=${3:-3}

folder=$(mktemp -d)
trap 'rm -rf -- "$folder"' EXIT
for ((seed = 1; seed <= seeds; seed++)); do
    python3 "$tests/model/random_script.py" "$commands" "$events" "$seed" "$folder"
    python3 "$tests/model/model.py" "$folder/script" "$folder"/trace? >"$folder/wanted"
    status=0
    "$tests/../histdesk" "$folder/script" "$folder"/trace? >"$folder/printed" || status=$?
    if ((status > 1)) || ! cmp -- "$folder/wanted" "$folder/printed"; then
        echo "seed $seed: the program and the model differ"
        exit 1
    fi
    echo "seed $seed: $(wc -l <"$folder/printed") lines, the same"
done
