#!/usr/bin/env bash
# Tests the Python client, its server and its shell: threads, signals, forks, kills, wrong answers, many clients of one server, backups beside
# writers, and the code of their pages.
#
#     tests/python.sh PROGRAM [PART]
#
# PROGRAM is a built `lsmctl`. PART is the part of the long loops that is done, 1 by default.
program=$(realpath "${1:?the path of a built lsmctl}")
part=${2:-1}
# shellcheck source=tests/common.sh
source "$(dirname "$(realpath "$0")")/common.sh"
has python3 'the Python client' || exit 0

# Each test ends by itself after 300 seconds, with the stacks of its threads; all together end after 900.
cd "$tests/../clients/python/tests"
said=$room/said
status=0
TMPDIR=$folder LSMCTL=$program CORWAPHI_TEST_PART=$part PYTHONDONTWRITEBYTECODE=1 \
    timeout -k 10 900 python3 -X dev -m unittest -v test_client test_faults test_server test_package >"$said" 2>&1 || status=$?
if [ "$status" != 0 ]; then
    cat "$said" >&2
    fail "the tests of the client end with $status"
fi
sed -n "s/.* skipped '\(.*\)'$/python.sh: skipped: \1/p" "$said"
echo "python.sh: $(sed -n 's/^Ran \([0-9]* tests\) .*/\1/p' "$said"), all as it should be"
