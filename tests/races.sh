#!/usr/bin/env bash
# Looks what happens where another process replaces a file between its opening and its lock.
#
#     tests/races.sh PROGRAM
#
# PROGRAM is a built `lsmctl`. `strace` holds it up before one of its locks, while another run of it is done.
source "$(dirname "$(realpath "$0")")/common.sh"
program=$(realpath "${1:?the path of a built lsmctl}")
cd "$folder"
traces 'files that are replaced before they are locked' || exit 0
tried=0

# A store with a key, alone in a folder; and a folder without one.
"$program" format base 8192 128 >out
"$program" put base 61 31 >out
with_store() { rm -rf room && mkdir room && cp base room/F; }
without_store() { rm -rf room && mkdir room; }

# wait_for COUNT: until so many calls of flock have begun.
wait_for() {
    local begun
    for _ in {1..6000}; do
        begun=$(grep -c '^flock' trace 2>/dev/null || true)
        if [ "${begun:-0}" -ge "$1" ]; then return; fi
        sleep 0.01
    done
    fail "it doesn't come to its lock $1"
}

# race BEFORE PLACE WORDS..: runs the program on these words, and `format` on the same file while it waits before its lock of this place,
# counted from 1. Leaves `status` and `said` of it, and `other`, that of the format. Where the format took longer than the other waited
# both are run once more, with a longer wait.
race() {
    local before=$1 place=$2 seconds waits
    shift 2
    what="$* before lock $place, $before"
    tried=$((tried + 1))
    for seconds in 2 4 8 16 32 64; do
        "$before"
        rm -f trace
        strace -qq -o trace -e trace=flock -e "inject=flock:delay_enter=${seconds}000000:when=$place" "$program" "$@" >said 2>&1 &
        wait_for "$place"
        other=0
        "$program" format room/F 8192 128 >out 2>&1 || other=$?
        waits=$(grep -c DELAYED trace || true)
        status=0
        wait $! || status=$?
        said=$(cat said)
        if [ "$waits" = 0 ]; then return; fi
    done
    fail "a format takes more than a minute"
}

is_refused() {
    [ "$status" = 1 ] || fail "it ends with $status: $said"
    [ "$(head -n 1 <<<"$said")" = "refused 02 Io" ] || fail "it prints $said"
}

# The file is the store that a format made, alone in its folder.
is_new() {
    [ "$(ls -A room)" = F ] || fail "the folder has $(ls -A room)"
    [ "$("$program" get room/F 61)" = absent ] || fail "the key is there"
    "$program" check room/F >out || fail "it is no store: $(cat out)"
}

# What was opened is replaced: nobody would find what is written to it.
for words in 'put room/F 62 32' 'del room/F 61' 'format room/F 16384 128' 'compact room/F'; do
    # shellcheck disable=SC2086 # They are words.
    race with_store 1 $words
    [ "$other" = 0 ] || fail "the format ends with $other: $(cat out)"
    is_refused
    is_new
done

# Two make a file where none is: one has the name from its first lock on.
race without_store 1 format room/F 16384 128
[ "$other" = 0 ] || fail "the format ends with $other: $(cat out)"
is_refused
is_new
race without_store 2 format room/F 8192 128
[ "$other" = 1 ] || fail "the other format ends with $other: $(cat out)"
[ "$status" = 0 ] || fail "it ends with $status: $said"
is_new
echo "races.sh: $tried files are replaced before they are locked, or not at all"
