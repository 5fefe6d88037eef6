#!/usr/bin/env bash
# Looks that `lsmctl` shows on a terminal how far it is, a line a second at most, and elsewhere only how many rows are loaded.
#
#     tests/progress.sh PROGRAM
#
# PROGRAM is a built `lsmctl`. Its input comes with pauses, so that a run takes seconds however fast the machine is. `script` makes a
# terminal of its standard error.
source "$(dirname "$(realpath "$0")")/common.sh"
program=$(realpath "${1:?the path of a built lsmctl}")
cd "$folder"
has script 'what is shown on a terminal' || exit 0
ln -s "$program" lsmctl
mkfifo input

# Runs words on an input that comes from a command. What they print goes to `out`, and what a terminal shows to `shown`.
on_a_terminal() {
    local feed=$1 words=$2 begun=$EPOCHREALTIME feeder
    "$feed" >input &
    feeder=$!
    script -qec "./lsmctl $words <input >out" /dev/null </dev/null >typed || fail "$words on a terminal: $(cat typed)"
    wait "$feeder" || fail "$words did not take its input"
    seconds=$(((${EPOCHREALTIME/[.,]/} - ${begun/[.,]/}) / 1000000))
    tr -d '\r' <typed >shown
}

# So many lines of this form were shown, at least, and no other; no more than a line a second; and `out` has just the answer.
shows() {
    local least=$1 form=$2 answer=$3 count
    count=$(wc -l <shown)
    [ "$count" -ge "$least" ] && [ "$count" -le "$seconds" ] || fail "$form: $count lines in $seconds seconds"
    if grep -Evxq "$form" shown; then fail "it shows $(cat shown)"; fi
    grep -Exq "$answer" out && [ "$(wc -l <out)" -eq 1 ] || fail "it prints $(head -c 300 out)"
}

# ---- rows

# Each part is more than a batch.
awk 'BEGIN { for (row = 1; row <= 600; row++) printf "%08x %01000d\n", row, row }' >rows
rows_with_pauses() {
    for part in 1 151 301 451; do
        sed -n "$part,$((part + 149))p" rows
        sleep 1.2
    done
}
"$program" format F 16384 2042 >out
on_a_terminal rows_with_pauses 'load F'
shows 2 '[0-9]+ rows loaded' 'loaded 600'
sed 's/ .*//' shown >numbers
sort -nc numbers || fail "the numbers fall: $(cat numbers)"
[ "$(tail -n 1 numbers)" -le 600 ] || fail "more rows are shown than there are: $(cat numbers)"

# The same where standard error is a file.
"$program" format F 16384 2042 >out
rows_with_pauses | "$program" load F >out 2>shown || fail "load: $(cat shown)"
shows 2 '[0-9]+ rows loaded' 'loaded 600'

# ---- crashes of a script

script_with_a_pause() {
    printf 'commit +61=31\nsync\ncommit +62=32\nsync\n'
    sleep 1.2
}
on_a_terminal script_with_a_pause 'explore 8192 128'
shows 1 '[0-9]+ states explored, fuse [0-9]+ of [0-9]+' 'first [0-9]+ second [0-9]+ skipped 0 wrong 0'

# Nothing where standard error is a file.
script_with_a_pause | "$program" explore 8192 128 >out 2>shown || fail "explore: $(cat shown)"
shows 0 'none' 'first [0-9]+ second [0-9]+ skipped 0 wrong 0'
echo "progress.sh: a terminal shows how far a run is, a line a second at most, and a file gets only the rows that are loaded"
