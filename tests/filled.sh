#!/usr/bin/env bash
# Fills stores with random streams until they are refused, rescues them by deletes, and fills them again; and leads those that were once
# stuck. Of one store in 25 calls of the device fail. Then as many have other calls between their batches: guarded ones, reads at
# snapshots, syncs and compactions.
#
#     tests/filled.sh PROGRAM [STORES [SEED]]
#
# PROGRAM is a built `lsmctl`; the program that fills them, `test_hostile stores`, is that of the same tree. There are 1,000 STORES from SEED 1 on.
source "$(dirname "$(realpath "$0")")/common.sh"
program=$(realpath "${1:?the path of a built lsmctl}")
test_hostile=$(realpath "$(dirname "$program")/../../test_hostile/out/test_hostile")
stores=${2:-1000}
seed=${3:-1}

"$test_hostile" stores "$seed" "$stores" 1000 0 0 20 2000 >"$room/said" 2>"$room/counts" || {
    cat "$room/counts" "$room/said" >&2
    fail "test_hostile ends with $?"
}
echo "filled.sh: $(tail -n 1 "$room/counts"): $(cat "$room/said")"

"$test_hostile" stores "$seed" "$stores" 100 0 0 8 0 1 >"$room/said" 2>"$room/counts" || {
    cat "$room/counts" "$room/said" >&2
    fail "test_hostile with other calls ends with $?"
}
echo "filled.sh: with other calls $(tail -n 1 "$room/counts"): $(cat "$room/said")"

# Its free blocks lay apart, so that no run of level 0 found room below, and each put was refused until a compaction.
"$test_hostile" stores 303791 1 1000 0 0 0 0 >"$room/said" 2>"$room/counts" || {
    cat "$room/counts" "$room/said" >&2
    fail "test_hostile with the store of seed 303791 ends with $?"
}
