#!/usr/bin/env bash
# gate.sh [COMMIT]: runs the gate, .ci/run, on a clean clone of COMMIT, by default of what is committed, and prints what it took:
# for each crate its proof, its tests and its edits that must fail, in processor seconds and by the clock, and the memory of the
# prover's largest process; then the whole, and how long each part of the gate took, if it says so. If edits are tried by `rt ci`,
# the second proof that they begin with is a column of its own. The gate uses the processors on which this may run:
# `taskset -c 0,1 bench/gate.sh` measures it on two. If it passes and no COMMIT is given, what each proof took is written to
# build/proof_seconds.
# shellcheck source-path=SCRIPTDIR
set -euo pipefail

here=$(dirname -- "$(realpath -- "${BASH_SOURCE[0]}")")
. "$here/common.sh"
commit=$(git -C "$here/.." rev-parse --verify "${1:-HEAD}^{commit}")
git clone -q -- "$here/.." "$folder/clone"
cd -- "$folder/clone"
git checkout -q --detach "$commit"
weights=()
if (($# == 0)); then
    weights=(--weights "$here/../build/proof_seconds")
fi
python3 "$here/gate.py" "${weights[@]}" .ci/run
