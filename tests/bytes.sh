#!/usr/bin/env bash
# Changes bytes of images of stores, and looks that a check, an opening and the calls after it answer as they may: of the changes of one byte
# that `test_hostile` tries by hand one in ten, where its own run in the gate tries one in a hundred.
#
#     tests/bytes.sh PROGRAM [PART]
#
# PROGRAM is a built `lsmctl`; `test_hostile` is that of the same tree. PART is the part of ten thousand that it is told, or 5,000.
source "$(dirname "$(realpath "$0")")/common.sh"
program=$(realpath "${1:?the path of a built lsmctl}")
test_hostile=$(realpath "$(dirname "$program")/../../test_hostile/out/test_hostile")
part=${2:-5000}

# The list with single bytes of an image with one key.
"$test_hostile" "$part" 17 >"$room/said" 2>"$room/counts" || {
    cat "$room/counts" "$room/said" >&2
    fail "test_hostile ends with $?"
}
echo "bytes.sh: $(grep -v ': 0 cases' "$room/counts"): $(cat "$room/said")"
