#!/usr/bin/env bash
# Looks whether a store lasts that `lsmctl` feeds by single puts, that is filled and emptied, that has as many tables as it may, that scripts
# filled as no put does, and that is moved to a larger file.
#
#     tests/lasting.sh PROGRAM [SECONDS [TIMES]]
#
# PROGRAM is a built `lsmctl`. 300 single puts are made in the order of keys, and as many in another order, and each goes on to 5,000
# as long as SECONDS last, or 10. A store is filled and emptied so many TIMES, or once.
source "$(dirname "$(realpath "$0")")/common.sh"
program=$(realpath "${1:?the path of a built lsmctl}")
seconds=${2:-10}
times=${3:-1}
cd "$folder"

# Runs the program, which has to end with 0, and leaves what it printed in `said`.
ask() {
    said=$("$program" "$@" 2>err) || fail "$*: $said $(cat err)"
}

# The sound image of a store, with so many batches.
look() {
    ask check "$1"
    [[ $said == 'ok generation '*" batches $2 "* ]] || fail "check of $1 prints $said"
}

# ---- single puts

# Puts the value 31 under keys of two bytes, one by one, on the smallest device. The factor is odd, so that no key comes twice.
single_puts() {
    local name=$1 factor=$2 count=0 end=$((SECONDS + seconds)) key
    ask format "$name" 8192 128
    : >wanted
    while [ "$count" -lt 300 ] || { [ "$count" -lt 5000 ] && [ "$SECONDS" -lt "$end" ]; }; do
        printf -v key %04x $((count * factor % 65536))
        count=$((count + 1))
        ask put "$name" "$key" 31
        [ "$said" = "batch $count" ] || fail "put $count of $name prints $said"
        echo "$key 31" >>wanted
    done
    look "$name" "$count"
    "$program" dump "$name" >rows 2>err || fail "dump $name: $(cat err)"
    LC_ALL=C sort wanted | cmp -s - rows || fail "$name has other rows than were put"
    echo "lasting.sh: $count single puts of $name keys on 8,192 sectors are found, in a sound image"
}
single_puts ascending 1
single_puts scattered 40503

# ---- a larger file

ask compact scattered
ask format larger 16384 2042
"$program" dump scattered >rows 2>err || fail "dump: $(cat err)"
said=$("$program" load larger <rows 2>err) || fail "load: $(cat err)"
[ "$said" = "loaded $(wc -l <rows)" ] || fail "load of $(wc -l <rows) rows prints $said"
"$program" dump larger >moved 2>err || fail "dump: $(cat err)"
cmp -s rows moved || fail "a dump, loaded and dumped again, has other lines"
echo "lasting.sh: $(wc -l <rows) rows are dumped, loaded into a larger file, and dumped again with the same lines"

# Many rows, with keys and values of many lengths.
awk 'BEGIN {
    for (n = 0; n < 20000; n++) {
        key = sprintf("%08x", n); for (i = 0; i < n % 90; i++) key = key "07"
        value = ""; for (i = 0; i < n % 300; i++) value = value "05"
        print key, value == "" ? "empty" : value
    }
}' >rows
ask format large 65536 2042
said=$("$program" load large <rows 2>err) || fail "load: $(cat err)"
[ "$said" = "loaded 20000" ] || fail "load of 20000 rows prints $said"
"$program" dump large >moved 2>err || fail "dump: $(cat err)"
cmp -s rows moved || fail "20000 rows are dumped with other lines"
ask check large
[[ $said == 'ok generation '* ]] || fail "check after 20000 rows prints $said"

# A line that is no row ends a loading. What was before it stays.
status=0
said=$(printf '61 31\n62 empty\n63\n64 34\n' | "$program" load larger 2>err) || status=$?
[ "$status" -eq 2 ] && [ "$said" = "loaded 2" ] || fail "load of a line that is no row ends with $status and prints $said"
grep -q 'line 3 ' err || fail "a line that is no row is told by $(cat err)"
ask get larger 62
[ "$said" = "value empty" ] || fail "get of a row before one that is none prints $said"
ask get larger 64
[ "$said" = absent ] || fail "get of a row after one that is none prints $said"
echo "lasting.sh: a line that is no row is named, and the rows before it are there"

# ---- a full store

# Loads rows until there is no room, deletes them one by one, and compacts: all blocks are free then.
fill_and_empty() {
    local status=0 rows key
    for ((key = 0; key < 4000; key++)); do printf '%04x %04000x\n' "$key" "$key"; done >rows
    said=$("$program" load full <rows 2>err) || status=$?
    [ "$status" -eq 1 ] && [ "$(grep -v ' rows loaded$' err)" = "refused 13 NoSpace" ] || fail "load of more than there is room for ends with $status: $said $(cat err)"
    rows=${said#loaded }
    status=0
    "$program" put full ffff 31 >out 2>err || status=$?
    [ "$status" -eq 1 ] && [ "$(cat err)" = "refused 13 NoSpace" ] || fail "put to a full store ends with $status: $(cat out err)"
    for ((key = 0; key < rows; key++)); do ask del full "$(printf %04x "$key")"; done
    "$program" dump full >left 2>err || fail "dump: $(cat err)"
    [ ! -s left ] || fail "a store that was emptied has $(wc -l <left) rows"
    ask compact full
    [[ $said == *' tables 0 free 959' ]] || fail "compact of a store that was emptied prints $said"
    echo "lasting.sh: $rows rows of 2,000 bytes fill a store of 8,192 sectors; after their deletes all blocks are free"
}
ask format full 8192 128
for ((time = 0; time < times; time++)); do fill_and_empty; done

# ---- as many tables as a store has room for

# Short rows would make 1,024 tables before they fill the largest file. They are refused before, so that deletes and compactions go on.
awk 'BEGIN { for (n = 0; n < 3000000; n++) printf "%08x empty\n", n }' >rows
ask format many 1048576 2042
status=0
said=$("$program" load many <rows 2>err) || status=$?
[ "$status" -eq 1 ] && [ "$(grep -v ' rows loaded$' err)" = "refused 13 NoSpace" ] || fail "load of more rows than there are tables for ends with $status: $said $(cat err)"
rows=${said#loaded }
ask stat many
tables=${said#* tables }
[ "${tables%% *}" -le 896 ] || fail "after a load that found no room there are few tables left: $said"
for ((key = 0; key < 20; key++)); do ask del many "$(printf %08x "$key")"; done
ask compact many
ask get many "$(printf %08x $((rows - 1)))"
[ "$said" = "value empty" ] || fail "get of the last row that was loaded prints $said"
ask get many 00000000
[ "$said" = absent ] || fail "get of a row that was deleted prints $said"
ask check many
[[ $said == 'ok generation '* ]] || fail "check of a store with many tables prints $said"
echo "lasting.sh: $rows short rows leave tables free, and are deleted and compacted"

# ---- what scripts bring about

# The steps that make so many flushes of one put each, of the keys from 0001 on. What would be more than 11 runs of level 0 goes down to
# level 1, each as a table of its own, but for the last one.
flushes() {
    local number job=0 runs=0
    for ((number = 1; number <= $1; number++)); do
        job=$((job + 1)) runs=$((runs + 1))
        printf 'commit +%04x=31\nrotate\ntake\nbuild %d 1\naccept %d %d\nwrite %d\ninstall %d\n' "$number" $job $job $job $job $job
        if [ "$runs" -eq 12 ] && [ "$number" -lt "$1" ]; then
            job=$((job + 1)) runs=11
            printf 'take\nread %d\nbuild %d 1\naccept %d %d\nwrite %d\ninstall %d\n' $job $job $job $job $job $job
        fi
    done
}

# A script fills a store of so many sectors as no put does, until its numbers are these. Then all of its keys can be deleted, it is
# compacted to no tables, and takes puts.
emptied() {
    local sectors=$1 count=$2 numbers=$3 number
    ask format scripted "$sectors" 128
    { flushes "$count" && printf 'commit +%04x=31\nrotate\n' $((count + 1)); } >steps
    "$program" replay scripted <steps >said 2>err || fail "replay of $count flushes: $(tail -n 1 said err)"
    ask stat scripted
    [[ $said == *" waiting 1 $numbers free "* ]] || fail "stat after a script prints $said"
    for ((number = 1; number <= count + 1; number++)); do printf 'commit -%04x\n' "$number"; done >lines
    "$program" serve scripted <lines >said 2>err || fail "serve: $(cat err)"
    [ "$(grep -c '^batch ' said)" -eq $((count + 1)) ] || fail "of $((count + 1)) deletes one is answered $(grep -v -m 1 '^batch ' said)"
    ask compact scripted
    [[ $said == *' runs 0 tables 0 free '* ]] || fail "compact of a store that was emptied prints $said"
    ask put scripted 0001 31
    look scripted $((2 * count + 3))
    echo "lasting.sh: a store that a script brought to $numbers is emptied, and takes puts again"
}
emptied 8192 12 'runs 12 tables 12'
emptied 33442 1024 'runs 12 tables 1024'
# Of 4,100 blocks four are free, as many as the smallest table takes.
emptied 33314 1024 'runs 12 tables 1024'
