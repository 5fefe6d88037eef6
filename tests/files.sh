#!/usr/bin/env bash
# Looks what `lsmctl` does to a real file: that a write which fails or falls short is told, that a file is read back by
# other processes, and that what is told to stand was synced before.
#
#     tests/files.sh PROGRAM
#
# PROGRAM is a built `lsmctl`. Writes are made to fail, and to fall short, by a limit of the file size, which `prlimit`
# sets in bytes. Syncs are seen by `strace`, which also counts the calls of a run.
source "$(dirname "$(realpath "$0")")/common.sh"
program=$(realpath "${1:?the path of a built lsmctl}")
cd "$folder"

# Runs the program with no write above so many bytes of a file. Leaves `status`, and what it printed in `said`: no file, which
# the limit would cut. A write at the limit fails, and one across it falls short; the signal that then comes is ignored, or
# ends the program.
run_below() {
    local bytes=$1 signal=$2
    shift 2
    status=0
    said=$(
        if [ "$signal" = ignored ]; then trap '' XFSZ; fi
        exec prlimit --core=0 --fsize="$bytes" "$program" "$@" 2>&1
    ) || status=$?
}

# Behind the refusal stands what the system said, in one line: a write that begins at the limit or behind it is refused, and one across it
# falls short.
is_told() {
    [ "$said" = "$1"$'\nerror: File too large (os error 27)' ] || [ "$said" = "$1"$'\nerror: a write to the file fell short' ]
}

# What a `put` under a limit left: all of it where it was acknowledged, else everything or nothing.
look() {
    local limit=$1 got
    "$program" get store 61 >found 2>err || fail "limit $limit: get after a put that ended with $status: $(cat err)"
    got=$(cat found)
    case $status in
    0) [ "$got" = "value 31" ] || fail "limit $limit: a put was acknowledged, and get prints '$got'" ;;
    *) [ "$got" = "value 31" ] || [ "$got" = absent ] || fail "limit $limit: get prints '$got'" ;;
    esac
}

"$program" format fresh 8192 128 >out 2>err || fail "format: $(cat err)"
size=$((8192 * 512))
[ "$(stat -c %s fresh)" -eq "$size" ] || fail "a file of 8192 sectors has $(stat -c %s fresh) bytes"

# ---- writes that fail and writes that fall short

puts_below_limits() {
    local refused=0 killed=0 done=0 sector part limit
    # The sectors of the root, and of the beginning of the log; at a sector's begin its write fails, within it it falls short.
    for sector in 0 1 2 3 40 66 67 129 130 131 8191; do
        for part in 0 1 511; do
            limit=$((sector * 512 + part))
            cp fresh store
            run_below "$limit" ignored put store 61 31
            case $status in
            0)
                [ "$said" = "batch 1" ] || fail "limit $limit: put prints '$said'"
                done=$((done + 1))
                ;;
            1)
                is_told 'refused 02 Io' || fail "limit $limit: put prints '$said'"
                refused=$((refused + 1))
                ;;
            *) fail "limit $limit: put ended with $status: $said" ;;
            esac
            look "$limit"
        done
        # With the signal not ignored the program is ended by it, or doesn't meet the limit.
        cp fresh store
        run_below $((sector * 512)) taken put store 61 31
        if [ "$status" -gt 128 ]; then killed=$((killed + 1)); fi
        [ -z "$said" ] || [ "$status" -eq 0 ] || fail "limit $((sector * 512)): put ended with $status: $said"
        look "$((sector * 512))"
    done
    [ "$refused" -ge 12 ] && [ "$killed" -ge 4 ] && [ "$done" -ge 3 ] || fail "puts below a limit: $refused refused, $killed ended, $done done"
    echo "files.sh: of puts below a limit of the file size $refused were refused, $killed ended by the signal, $done done; none was lost"
}

formats_below_limits() {
    local limit
    for limit in 0 511 512 66816 $((size / 2)) $((size - 512)) $((size - 1)); do
        rm -f made
        run_below "$limit" ignored format made 8192 128
        [ "$status" -eq 1 ] && is_told 'refused 02 Io' || fail "format below $limit bytes ended with $status: $said"
    done
    run_below "$size" ignored format made 8192 128
    [ "$status" -eq 0 ] && [ "$(stat -c %s made)" -eq "$size" ] || fail "format below $size bytes ended with $status: $said"
    echo "files.sh: format is refused below each limit of the file size that its file exceeds"
}

# A put first moves the batch before it into a table. The limit leaves all but the data blocks, so that the write of the table's
# first block fails and stops the store: its refusal isn't told, and the commit behind it is refused. Nothing is lost.
put_that_cannot_settle() {
    cp fresh store
    "$program" put store 61 31 >out 2>err || fail "put: $(cat err)"
    run_below $((514 * 512)) ignored put store 62 32
    [ "$status" -eq 1 ] && is_told 'refused 03 Stopped' || fail "a put that can't settle ended with $status: $said"
    [ "$("$program" get store 61)" = "value 31" ] || fail "get 61 after a put that couldn't settle"
    [ "$("$program" get store 62)" = absent ] || fail "get 62 after a put that couldn't settle"
    "$program" put store 62 32 >out 2>err || fail "put: $(cat err)"
    [ "$(cat out)" = "batch 2" ] || fail "put after one that couldn't settle prints $(cat out)"
    echo "files.sh: a put whose settling fails is refused with 03 Stopped, and loses nothing"
}

if has prlimit 'writes that fail or fall short'; then
    puts_below_limits
    formats_below_limits
    put_that_cannot_settle
fi

# ---- a file that other processes read

cp fresh store
"$program" put store 61 31323334 >out 2>err || fail "put: $(cat err)"
"$program" put store 62 empty >out 2>err || fail "put: $(cat err)"
cp store moved
for file in store moved; do
    [ "$("$program" get "$file" 61)" = "value 31323334" ] || fail "$file: get 61 by another process"
    [ "$("$program" get "$file" 62)" = "value empty" ] || fail "$file: get 62 by another process"
    [ "$(stat -c %s "$file")" -eq "$size" ] || fail "$file: its length changed"
    # The batch's text stands in the file as other programs read it.
    LC_ALL=C grep -aq 1234 "$file" || fail "$file: the value is not in the file"
done
echo "files.sh: a file, and a copy of it, is read back by other processes"

# ---- many runs

# Runs the program with its calls of the file counted: those that read, write or sync, in `calls`.
counted=
run_counted() {
    if [ -z "$counted" ]; then
        "$program" "$@"
        return
    fi
    strace -qq -e trace=pread64,pwrite64,pwritev,fdatasync -o trace "$program" "$@"
    calls=$((calls + $(wc -l <trace)))
}

# Leaves in `used` the processor's time of all runs so far, in clock ticks.
take_time() {
    local stat
    read -ra stat <"/proc/$$/stat"
    used=$((stat[15] + stat[16]))
}

# Puts one after another, of keys that come again and of keys that don't: each settles what the one before it has left. The last hundred
# makes six times as many calls as the second at most, since an opening reads of each table. The hundreds between are not counted, and the last of these takes four times
# the processor's time of the first at most. The file is then the image of a store.
many_puts() {
    local number key value calls=0 used second last
    local -A wanted=() times=() calls_at=()
    "$program" format many 65536 128 >out 2>err || fail "format: $(cat err)"
    for ((number = 1; number <= 1000; number++)); do
        if ((number % 4 == 0)); then key=$((number % 1000)); else key=$((number % 29)); fi
        printf -v key %04x "$key"
        printf -v value %04x "$number"
        wanted[$key]=$value
        run_counted put many "$key" "$value" >out 2>err || fail "put $number: $(cat err)"
        [ "$(cat out)" = "batch $number" ] || fail "put $number prints $(cat out)"
        if ((number % 100 == 0)); then
            take_time
            times[$number]=$used calls_at[$number]=$calls
            case $number in 100 | 900) counted=$traced ;; *) counted='' ;; esac
        fi
    done
    if [ -n "$traced" ]; then
        second=$((calls_at[200] - calls_at[100])) last=$((calls_at[1000] - calls_at[900]))
        [ "$second" -gt 0 ] && [ "$last" -le $((6 * second)) ] || fail "puts 901 to 1000 made $last calls of the file, and puts 101 to 200 $second"
        echo "files.sh: puts 101 to 200 made $second calls of the file, and puts 901 to 1000 $last"
    fi
    second=$((times[300] - times[200])) last=$((times[900] - times[800]))
    [ "$last" -le $((4 * second + 20)) ] || fail "puts 801 to 900 took $last ticks of a processor, and puts 201 to 300 $second"
    "$program" check many >out 2>err || fail "check after 1000 puts: $(cat out err)"
    [[ $(cat out) == 'ok generation '*' batches 1000 tables '* ]] || fail "check after 1000 puts prints $(cat out)"
    for key in "${!wanted[@]}"; do
        [ "$("$program" get many "$key")" = "value ${wanted[$key]}" ] || fail "get $key after 1000 puts: $("$program" get many "$key")"
    done
    echo "files.sh: 1000 puts one after another stand in an image that a check finds sound, and each key has its last value"
}
traced=
if traces 'counts of the calls of many puts'; then traced=yes; fi
many_puts

# ---- syncs that fail

# No strace is needed: the kernel answers each sync of a run with an input/output error. A program that made none would go on.
syncs_fail() {
    local words status
    "$program" format store 8192 128 >out
    for words in 'put store 61 31' 'del store 61' 'get store 61' 'compact store' 'format other 8192 128' 'serve store'; do
        what="$words without a sync" status=0
        # shellcheck disable=SC2086 # They are words.
        printf 'commit +61=31\nsync\n' | "$tests/unsynced.py" "$program" $words >out 2>err || status=$?
        if [ "$status" = 77 ]; then skip 'syncs that fail' "$(cat err)" && return; fi
        [ "$status" = 1 ] || fail "it ends with $status, and prints $(cat out err)"
        [ "$(cat err)" = "$(printf 'refused 02 Io\nerror: Input/output error (os error 5)')" ] || fail "it prints $(cat err)"
        [ ! -e other ] || fail "a format that is refused leaves a file"
        [ "$("$program" get store 61)" = absent ] || fail "what was not synced is there"
    done
    what=
    echo "files.sh: a sync that fails ends a run with 02 Io, and the system's error"
}
if has python3 'syncs that fail'; then syncs_fail; fi

# ---- syncs

# The calls of one run that write the file (w), sync its data (d), sync it whole (s) and print (p), in their order.
calls_of() {
    strace -qq -e trace=pwrite64,pwritev,fdatasync,fsync,write -o trace "$program" "$@" >out 2>err || fail "$* under strace: $(cat err)"
    calls=$(sed -n -e 's/^pwrite.*/w/p' -e 's/^fdatasync(.* = 0$/d/p' -e 's/^fsync(.* = 0$/s/p' -e 's/^write(1,.*/p/p' trace | tr -d '\n')
}

count() {
    printf %s "$calls" | tr -dc "$1" | wc -c
}

# Nothing is written behind the last sync, and nothing told before it.
told_after_a_sync() {
    [[ $calls =~ ^[wds]*[ds]p+$ ]] || fail "$1: its calls are $(printf %s "$calls" | tr -s w)"
}

if traces 'syncs of a file, which nothing else sees'; then
    calls_of format traced 8192 128
    told_after_a_sync format
    # The zeros of the new file, 64 KiB by a call, are synced whole before the store is written, and the folder once the file has its name.
    [[ $calls =~ ^w{64}s[wd]+dsp+$ ]] || fail "format: no sync of the new file behind its zeros, or of its folder behind its name"
    [ "$(count s)" -eq 2 ] || fail "format: $(count s) syncs of a whole file and its folder"
    formatting=$(count d)
    calls_of put traced 61 31
    told_after_a_sync put
    putting=$(count d)
    calls_of get traced 61
    told_after_a_sync get
    getting=$(count d)
    # A batch of 45 sectors takes four writes at most, beside the two of the opening's root.
    {
        printf 'commit'
        for key in 01 02 03 04 05 06 07 08 09 0a; do printf ' +%s=%04096d' "$key" 0; done
        printf ' +0b=%01400d\nroom\n' 0
    } >script
    calls_of replay traced <script
    [ "$(tail -n 1 out)" = 'room 83' ] || fail "a batch of 45 sectors leaves $(tail -n 1 out)"
    [ "$(count w)" -le 6 ] || fail "a batch of 45 sectors: $(count w) writes"
    # Format syncs its zeros, and each opening what pended; then a root is installed with two syncs. A put syncs its batch.
    [ "$formatting $putting $getting" = "3 4 3" ] || fail "syncs of data: format $formatting, put $putting, get $getting"
    echo "files.sh: syncs of data: format $formatting and one of the whole file and its folder, put $putting, get $getting; each before the line that tells"
fi

# ---- a file that another program has

if has flock 'a file that another program has'; then
    "$program" format held 8192 128 >out 2>err || fail "format held: $(cat err)"
    before=$(sha256sum <held)
    rm -f locked
    (
        exec 9<>held
        flock 9
        : >locked
        exec sleep 600
    ) &
    holder=$!
    until [ -e locked ]; do sleep 0.05; done
    for words in 'get held 61' 'put held 61 31' 'putif held 61 absent 31' 'del held 61' 'scan held empty 1' 'stat held' 'check held' 'compact held' 'dump held' 'load held' 'serve held' 'replay held' 'format held 8192 128'; do
        status=0
        # The words are parted by spaces.
        # shellcheck disable=SC2086
        said=$("$program" $words </dev/null 2>&1) || status=$?
        [ "$status" -eq 1 ] && [ "$said" = "$(printf 'refused 02 Io\nerror: the file is in use')" ] ||
            fail "'$words' of a file in use ended with $status: $said"
    done
    kill "$holder"
    wait "$holder" 2>/dev/null || true
    [ "$(sha256sum <held)" = "$before" ] || fail "a refused run has changed a file in use"
    said=$("$program" get held 61 2>&1) || fail "get of a file that is free again: $said"
    [ "$said" = absent ] || fail "get of a file that is free again prints '$said'"
    echo "files.sh: a file that another program has is left alone"
fi

# ---- a load that a signal ends

# Rows come with pauses, and the signal behind the second line that tells how many are loaded. What was told last is there then, and what is
# there is a beginning of the rows.
load_ended_by() {
    local signal=$1 status=0 turn feeder loader lines rows_told rows_there
    rm -f feed
    mkfifo feed
    "$program" format loaded 16384 2042 >out 2>err || fail "format loaded: $(cat err)"
    (
        for part in 1 151 301 451; do
            sed -n "$part,$((part + 149))p" rows
            sleep 1.2
        done
        exec sleep 600
    ) >feed &
    feeder=$!
    # A program that is started behind the script's back ignores SIGINT, unless jobs are controlled.
    set -m
    "$program" load loaded <feed >out 2>err &
    loader=$!
    set +m
    lines=0
    for ((turn = 0; turn < 300 && lines < 2; turn++)); do
        sleep 0.1
        lines=$(grep -c '^[0-9]* rows loaded$' err || true)
    done
    kill -s "$signal" "$loader" 2>/dev/null || true
    wait "$loader" || status=$?
    kill "$feeder" 2>/dev/null || true
    wait "$feeder" 2>/dev/null || true
    [ "$lines" -ge 2 ] || fail "a load tells how many rows are loaded in $lines lines: $(cat err)"
    [ "$status" -eq $((128 + $(kill -l "$signal"))) ] && [ ! -s out ] || fail "a load that SIG$signal ends ended with $status: $(cat out err)"
    rows_told=$(tail -n 1 err | sed 's/ .*//')
    "$program" check loaded >out 2>err || fail "check after SIG$signal: $(cat out err)"
    "$program" dump loaded >there 2>err || fail "dump after SIG$signal: $(cat err)"
    rows_there=$(wc -l <there)
    [ "$rows_told" -gt 0 ] && [ "$rows_there" -ge "$rows_told" ] || fail "$rows_told rows were told before SIG$signal, and $rows_there are there"
    head -n "$rows_there" rows | cmp -s - there || fail "the $rows_there rows behind SIG$signal are no beginning"
    echo "files.sh: of a load that SIG$signal ends $rows_told rows were told, and the first $rows_there are there"
}

awk 'BEGIN { for (row = 1; row <= 600; row++) printf "%08x %01000d\n", row, row }' >rows
load_ended_by INT
load_ended_by TERM
