#!/usr/bin/env bash
# Looks what a store answers that `lsmctl serve` holds, line by line, and what its file has after a kill.
#
#     tests/serve.sh PROGRAM [LINES]
#
# PROGRAM is a built `lsmctl`. LINES random lines (20,000), with tags and without, are compared with a dict and its snapshots; a kill
# falls in the middle, and a second start has to find all that was synced. That part needs python3.
source "$(dirname "$(realpath "$0")")/common.sh"
program=$(realpath "${1:?the path of a built lsmctl}")
lines=${2:-20000}
cd "$folder"

# Makes a new store, and serves it the lines of the file `lines`. Leaves `status`, and what it printed in out and err.
serve() {
    rm -f F
    "$program" format F 8192 128 >out || fail "format: $(cat out)"
    status=0
    "$program" serve F <lines >out 2>err || status=$?
}

# It has to end with 0, to print just the file `wanted`, and to leave a sound image of so many batches.
expect() {
    [ "$status" = 0 ] || fail "$1: it ends with $status: $(cat err)"
    cmp -s out wanted || fail "$1: $(diff wanted out | head -n 5 | cut -c 1-200)"
    [ ! -s err ] || fail "$1: on standard error: $(cat err)"
    local said
    said=$("$program" check F) || fail "$1: check prints $said"
    [[ $said == 'ok generation '*" batches $2 "* ]] || fail "$1: check prints $said"
}

# Calls, refusals and lines that are none.
printf '%s\n' 'commit +61=31' 'get 61' 'take' 'get 6' '' 'stat now' 'room' 'release 1' 'snapshot' 'commit -61' 'get 61 @1' 'sync' 'syncto 3' \
    'if ?61=31 then +62=32' 'commit +empty=31' 'scan empty end 64 @1' 'get 61' >lines
hex='expected hex, two digits a byte, or empty for no bytes'
names='expected commit, if, sync, syncto, get, scan, snapshot, release, room, stat, compact'
printf '%s\n' 'batch 1' 'value 31' 'usage 3: the line is no call' "usage 4: KEY is \"6\": $hex" "usage 5: the first word is \"\": $names" \
    'usage 6: the line is "stat now": expected its first word alone' 'room 127' 'refused 07 NoSuchSnapshot' 'snapshot 1' 'batch 2' 'value 31' 'ok' \
    'refused 09 NoSuchBatch' 'refused 30 GuardFailed 0' 'refused 16 BadKey' 'rows 61=31 end' 'absent' >wanted
serve
expect 'a session' 2

# What no newline ends is not done, wherever it was cut off. It is told, and what stands before it was answered.
cut='commit +61=31 +62=32'
{
    for ((size = 1; size <= ${#cut}; size++)); do echo "${cut:0:size}"; done
    printf '%s\n' ' ' 'sync' '#1' '#1 get 60' compact "$(printf '%0300001d' 0)" "commit $(printf '%070000d' 0)"
} >cuts
while IFS= read -r begun; do
    printf 'commit +60=30\n%s' "$begun" >lines
    serve
    [ "$status" = 1 ] || fail "a cut line: it ends with $status"
    [ "$(cat err)" = 'error: the input could not be read: it ends within a line, which was not done' ] || fail "a cut line: it says $(cat err)"
    [ "$(cat out)" = 'batch 1' ] || fail "a cut line: it prints $(head -c 200 out)"
    [ "$("$program" dump F)" = '60 30' ] || fail "a cut line is done: ${begun:0:80}"
done <cuts
printf '%s' "$cut" >lines
serve
[ "$status" = 1 ] && [ ! -s out ] && [ -z "$("$program" dump F)" ] || fail 'a cut line alone is done'

# Answers begin with the tags of their lines, whatever these are, and what is no tag is none.
printf '%s\n' '#1 commit +61=31' '#00000000000000000001 get 61' 'get 61' '#3 take' '#4 get 6' '#5 ' '#5' '# get 61' '#x get 61' \
    '#100000000000000000000 get 61' '#12345678901234567890 get 61' ' #1 get 61' '#1  get 61' '#1 #2 get 61' >lines
printf '%s\n' '#1 batch 1' '#00000000000000000001 value 31' 'value 31' '#3 usage 4: the line is no call' "#4 usage 5: KEY is \"6\": $hex" \
    "#5 usage 6: the first word is \"\": $names" "usage 7: the first word is \"#5\": $names" "usage 8: the first word is \"#\": $names" \
    "usage 9: the first word is \"#x\": $names" "usage 10: the first word is \"#100000000000000000000\": $names" '#12345678901234567890 value 31' \
    "usage 12: the first word is \"\": $names" "#1 usage 13: the first word is \"\": $names" "#1 usage 14: the first word is \"#2\": $names" >wanted
serve
expect 'tags' 1

# What is expected, and where. What is shown is cut and made printable.
printf '%s\n' 'commit' 'commit +61=3' 'commit +61=31 62=32' 'commit +61' 'if ?61=31 then' 'if !61' 'if x then +61=31' 'if !61 then +6=31' 'get' 'get 61 1' \
    'get 61 @1 2' 'scan 61 62' 'scan 6 62 1' 'scan 61 6 1' 'scan 61 62 x' 'scan 61 end 1 1' 'syncto' 'syncto +1' 'release 18446744073709551616' 'compact 1' \
    "$(printf '%090d' 0)" "$(printf 'a\tb\x7f\xc3\xa9')" >lines
commits='expected commit OP .., with one OP at least'
ifs='expected if GUARD .. then OP .., with one OP at least'
scans='expected scan FROM TO LIMIT, or scan FROM TO LIMIT @S'
printf '%s\n' "usage 1: the line is \"commit\": $commits" "usage 2: VALUE is \"3\": $hex" 'usage 3: OP is "62=32": expected +KEY=VALUE or -KEY' \
    'usage 4: OP is "+61": expected +KEY=VALUE or -KEY' "usage 5: the line is \"if ?61=31 then\": $ifs" "usage 6: the line is \"if !61\": $ifs" \
    'usage 7: GUARD is "x": expected ?KEY=VALUE or !KEY' "usage 8: KEY is \"6\": $hex" 'usage 9: the line is "get": expected get KEY, or get KEY @S' \
    'usage 10: the snapshot is "1": expected @ and the number of a snapshot' 'usage 11: the line is "get 61 @1 2": expected get KEY, or get KEY @S' \
    "usage 12: the line is \"scan 61 62\": $scans" "usage 13: FROM is \"6\": $hex" "usage 14: TO is \"6\": $hex, or end" \
    'usage 15: the number is "x": expected a decimal number below 2^64' 'usage 16: the snapshot is "1": expected @ and the number of a snapshot' \
    'usage 17: the line is "syncto": expected syncto N' 'usage 18: the number is "+1": expected a decimal number below 2^64' \
    'usage 19: the number is "18446744073709551616": expected a decimal number below 2^64' \
    'usage 20: the line is "compact 1": expected its first word alone' "usage 21: the first word is \"$(printf '%080d' 0)\": $names" \
    "usage 22: the first word is \"a?b???\": $names" >wanted
serve
expect 'mistakes' 0

# A line of 300,000 bytes is read, and of one more it is told that it is too long. Its tag counts. Neither leaves anything behind.
{
    printf '%0300000d\n' 0
    printf '%0300001d\n' 0
    printf '%09000000d\n' 0
    printf '#12 %0299996d\n' 0
    printf '#12 %0299997d\n' 0
    echo 'commit +61=31'
    printf 'get \xff\n'
} >lines
zeros=$(printf '%080d' 0)
printf '%s\n' "usage 1: the first word is \"$zeros\": $names" 'usage 2: a line has at most 300000 bytes' 'usage 3: a line has at most 300000 bytes' \
    "#12 usage 4: the first word is \"$zeros\": $names" '#12 usage 5: a line has at most 300000 bytes' 'batch 1' 'usage 7: the line is "get ?": expected UTF-8' >wanted
serve
expect 'long lines' 1

# `compact` leaves one table in the last level of the flushes that a full log brought, and keeps what snapshots see.
{
    for number in $(seq 200); do
        printf 'commit +%02x=%0480d\n' "$((number % 5))" "$number"
    done
    printf '%s\n' snapshot 'commit -00 -01 -02 -03' compact 'get 00' 'get 00 @1' 'get 04'
} >lines
serve
[ "$status" = 0 ] || fail "a compaction: it ends with $status: $(cat err)"
[[ $(sed -n 203p out) == 'generation '*' batches 201 '*' runs 0 tables '* ]] || fail "a compaction: $(sed -n 203p out)"
printf '%s\n' absent "value $(printf '%0480d' 200)" "value $(printf '%0480d' 199)" >wanted
tail -n 3 out | cmp -s - wanted || fail "a compaction: $(tail -n 3 out | cut -c 1-100)"

# Who sends a line and waits gets its answer, though a part of the next line has come; and so many lines as one likes may come at once.
rm -f F
"$program" format F 8192 128 >out || fail "format: $(cat out)"
mkfifo in out.fifo
"$program" serve F <in >out.fifo 2>err &
server=$!
exec 7>in 8<out.fifo
for line in 'get 61' '#1 get 61' 'commit +61=31'; do
    printf '%s\nget' "$line" >&7
    read -r -t 60 answer <&8 || fail 'a waiting peer: no answer'
    printf ' 62\n' >&7
    read -r -t 60 answer <&8 || fail 'a waiting peer: no second answer'
    [ "$answer" = absent ] || fail "a waiting peer: $answer"
done
exec 7>&-
wait "$server" || fail "a waiting peer: it ends with $?: $(cat err)"
exec 8<&-
rm in out.fifo
for number in $(seq 50000); do echo "#$number get 61"; done >lines
"$program" serve F <lines >out 2>err || fail "many lines: $(cat err)"
seq -f '#%g value 31' 50000 >wanted
cmp -s out wanted || fail "many lines: $(diff wanted out | head -n 5)"

# No line at all.
: >lines
: >wanted
serve
expect 'no line' 0

# Several logs are filled, and no commit is refused: other logs are opened, and what they held is flushed.
for number in $(seq 400); do
    printf 'commit +%04x=%0480d +%04x=%0480d\n' "$((number % 90))" 0 "$((number % 70))" 1
done >lines
seq -f 'batch %g' 400 >wanted
serve
expect 'full logs' 400

# A store that puts fill to a third of its blocks refuses them with NoSpace, as put does, and takes deletes. Emptied and compacted it
# takes puts again.
for number in $(seq 2600); do
    printf 'commit +%06x=%04000d\n' "$number" 0
done >lines
serve
[ "$status" = 0 ] || fail "a full store: it ends with $status: $(cat err)"
grep -q '^refused 13 NoSpace$' out || fail 'a full store: no put is refused'
[ "$(grep -vc '^batch \|^refused 13 NoSpace$' out)" = 0 ] || fail "a full store: $(grep -v '^batch \|^refused 13 NoSpace$' out | head -n 1)"
for number in $(seq 2600); do
    printf 'commit -%06x\n' "$number"
done >lines
"$program" serve F <lines >out 2>err || fail "deletes in a full store: $(cat err)"
[ "$(grep -vc '^batch ' out)" = 0 ] || fail "deletes in a full store: $(grep -v '^batch ' out | head -n 1)"
printf '%s\n' compact 'commit +61=31' >lines
"$program" serve F <lines >out 2>err || fail "an emptied store: $(cat err)"
grep -q '^batch ' out || fail "an emptied store: $(cat out)"

# A standard output that is closed ends it with 1, and so does one whose reader has gone.
echo 'get 61' >lines
status=0
"$program" serve F <lines >&- 2>err || status=$?
[ "$status" = 1 ] || fail 'a closed standard output does not end it with 1'
if [ -e /dev/full ]; then
    status=0
    "$program" serve F <lines >/dev/full 2>err || status=$?
    [ "$status" = 1 ] || fail 'a full standard output does not end it with 1'
fi
statuses=(0 0 0)
yes 'get 61' | "$program" serve F 2>err | head -n 1 >out || statuses=("${PIPESTATUS[@]}")
[ "${statuses[1]}" = 1 ] || fail 'it goes on after its reader has gone'

# A file that is no store.
printf 'no store' >none
status=0
"$program" serve none <lines >out 2>err || status=$?
[ "$status" = 1 ] && [ ! -s out ] || fail 'a file that is no store is served'

if has python3 'random lines'; then
    rm -f F
    "$program" format F 8192 128 >out || fail "format: $(cat out)"
    timeout -k 10 900 python3 "$tests/serve.py" compare "$program" F "$lines" || fail "random lines ended with $?"
    "$program" check F >out || fail "after a kill: $(cat out)"
fi
echo "serve.sh: all is as it should be"
