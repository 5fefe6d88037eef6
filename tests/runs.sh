#!/usr/bin/env bash
# Runs `lsmctl` on words and scripts, and looks how it ends, what it prints and what its files hold.
#
#     tests/runs.sh PROGRAM
#
# PROGRAM is a built `lsmctl`. The runs stand in the folder `runs`, and each file there says at its head how to read it.
# In all of them 61{256} is 61 written 256 times, and PUTS are 29 puts of 2,048 bytes, of the keys 01 to 1d.
source "$(dirname "$(realpath "$0")")/common.sh"
program=$(realpath "${1:?the path of a built lsmctl}")
runs=$tests/runs
cd "$folder"
count=0

# Leaves in `repeated` a text so many times.
repeat() {
    local spaces
    printf -v spaces '%*s' "$2" ''
    repeated=${spaces// /$1}
}

puts=
for ((key = 1; key <= 29; key++)); do
    printf -v puts '%s+%02x=09{2048} ' "$puts" "$key"
done

# Leaves in `text` a text with what its short forms stand for.
expand() {
    text=${1//PUTS /$puts}
    while [[ $text =~ ([0-9a-f][0-9a-f])\{([0-9]+)\} ]]; do
        repeat "${BASH_REMATCH[1]}" "${BASH_REMATCH[2]}"
        text=${text//"${BASH_REMATCH[0]}"/$repeated}
    done
}

# Runs the program on words, each parted from the next by one space, and on the file `input`. It ends with the status and
# prints the text, an answer or a fault, and nothing else. Where no text is given, a mistake may be told in any words.
run() {
    local wanted=$1 rest=$2 status=0 told=errors silent=output words=()
    expand "$rest"
    rest=$text
    while [[ $rest == *' '* ]]; do
        words+=("${rest%% *}")
        rest=${rest#* }
    done
    words+=("$rest")
    "$program" "${words[@]}" <input >output 2>errors || status=$?
    [ "$status" -eq "$wanted" ] || fail "'$2' ended with $status: $(head -c 300 errors)"
    if [ "$status" -eq 0 ]; then told=output silent=errors; fi
    [ ! -s "$silent" ] || fail "'$2' ended with $status, and its $silent hold $(head -c 300 "$silent")"
    if [ "$status" -eq 2 ] && [ -z "$3" ]; then
        [ "$(stat -c %s errors)" -gt 10 ] || fail "'$2' tells no mistake"
    else
        expand "$3"
        printf %b "$text" >wanted
        cmp -s wanted "$told" || fail "'$2' prints $(head -c 2000 "$told")"
    fi
    count=$((count + 1))
}

# Runs that have an input: the words, the input and the status, and the text, with \n for each end of a line.
run_on() {
    expand "$2"
    printf %b "$text" >input
    run "$3" "$1" "$4"
    : >input
}

# ---- single runs

# The first bytes of a sector of a file, in hex.
bytes_of() {
    od -An -v -tx1 -j $(($2 * 512)) -N "$3" "$1" | tr -d ' \n'
}

single_runs() {
    local line wanted words told path lengths
    for path in cut short; do run 0 "format $path 8193 128" 'formatted blocks 959\n'; done
    for path in long store; do run 0 "format $path 8192 128" 'formatted blocks 959\n'; done
    truncate -s $((8193 * 512 - 1)) cut
    truncate -s $((8192 * 512)) short zeros
    truncate -s $((8193 * 512)) long
    : >nothing
    cp store fresh
    # The superblock of generation 1, and its manifest (docs/formats.md).
    [ "$(bytes_of store 1 22)" = 4c534d53000200000000000000010000200000800001 ] || fail "another superblock"
    [ "$(bytes_of store 66 32)" = 4c534d4d00000000000000010000000000000000000000000000000100000000 ] || fail "another manifest"
    # The sector of the first batch, with which the first log begins.
    run 0 'format first 8192 128' 'formatted blocks 959\n'
    run 0 'put first 61 31' 'batch 1\n'
    [ "$(bytes_of first 130 42)" = 4c534d4c0000000000000002000000000000000100000001000800000000000000010101610001310000 ] || fail "another log sector"
    while IFS= read -r line; do
        case $line in '' | '#'*) continue ;; esac
        wanted=${line%% *}
        words=${line#*| }
        told=${words#* |}
        told=${told# }
        run "$wanted" "${words%% |*}" "${told:+$told\\n}"
    done
    [ ! -e missing ] || fail "a run that is refused makes its file"
    lengths=$(stat -c '%n %s' cut short long zeros nothing store | tr '\n' ' ')
    [ "$lengths" = "cut 4194815 short 4194304 long 4194816 zeros 4194304 nothing 0 store 4194304 " ] ||
        fail "the files have other lengths: $lengths"
}

# ---- scripts

# Runs the scripts of the standard input, in the form of scripts.txt.
scripts() {
    local line words='' left right script='' told=''
    while IFS= read -r line; do
        case $line in
        '#'*) ;;
        '')
            if [ -n "$words" ]; then run_on "$words" "$script" 0 "$told"; fi
            words='' script='' told=''
            ;;
        *)
            left=${line%%|*}
            left=${left%"${left##*[! ]}"}
            right=${line#*|}
            right=${right# }
            if [ -z "$words" ]; then words=$left; elif [ -n "$left" ]; then script+="$left\n"; fi
            if [ -n "$right" ]; then told+="$right\n"; fi
            ;;
        esac
    done < <(cat; echo)
}

# A line of a store that has a beginning of two batches: what get 61 and get 62 reply after none, one and two of them.
first=(absent 'value 31' 'value 31')
second=(absent absent 'value 05{600}')

# The first batch takes one sector of the log, and the second two: each mask over the three, and how many batches it keeps.
masks() {
    local mask kept
    while read -r mask kept; do
        scripts <<END
lives 8192 128 | open 0
commit +61=31 | batch 1
commit +62=05{600} | batch 2
crash $mask | open $kept
get 61 | ${first[$kept]}
get 62 | ${second[$kept]}
room | room 128
END
    done
}

# A commit of two sectors whose first or second write faults, the eighth or the ninth write or sync. The one that faults pends,
# so that the whole batch may be there where it was the last.
faulting_commits() {
    local fuse mask kept
    while read -r fuse mask kept; do
        scripts <<END
lives 8192 128 |
fuse $fuse | open 0
commit +61=31 | batch 1
sync | ok
commit +62=05{600} | refused 02 Io
commit +63=33 | refused 03 Stopped
crash $mask | open $kept
get 61 | ${first[$kept]}
get 62 | ${second[$kept]}
END
    done
}

# An opening that faults at each of its writes and syncs: whatever a crash then keeps, the next one finds the batch.
faulting_openings() {
    local fuse mask
    for fuse in 0 1 2 3 4; do
        for mask in 00 10 01 11; do
            scripts <<END
lives 8192 128 | open 0
commit +61=31 | batch 1
sync | ok
commit +62=32 | batch 2
crash none |
fuse $fuse | refused 02 Io
crash $mask | open 1
get 61 | value 31
get 62 | absent
END
        done
    done
}

# At most 32 snapshots live.
snapshots() {
    local number
    {
        echo 'lives 8192 128 | open 0'
        for ((number = 1; number <= 32; number++)); do echo "snapshot | snapshot $number"; done
        echo 'snapshot | refused 08 TooManySnapshots'
        echo 'release 5 | ok'
        echo 'snapshot | snapshot 33'
        echo 'snapshot | refused 08 TooManySnapshots'
    } >many
    scripts <many
}

# Three full regions open again: each key has the value of its last batch. In each life more writes pend than one call makes,
# and all are kept.
full_regions() {
    local number
    {
        echo 'lives 8192 2048 | open 0'
        for ((number = 1; number <= 6144; number++)); do
            printf 'commit +%02x=%02x | batch %d\n' $((number % 256)) $((number / 256)) "$number"
            if ((number % 2048 == 0)); then echo "crash all | open $number"; fi
        done
        echo 'room | room 0'
        echo 'get 00 | value 18'
        for ((number = 1; number < 256; number++)); do printf 'get %02x | value 17\n' "$number"; done
    } >full
    scripts <full
}

# The lines of a flush but for its install, where it is the job of this number, and those that it prints.
flush() {
    printf '%s\n' "rotate | ok" "take | job $1 flush" "build $1 1 | built $1 images 1" "accept $1 $1 | ok" "write $1 | left 0"
}

# Level 0 has 12 runs at most: a flush above them waits for a job of that level, while the log goes on.
full_level() {
    local number
    {
        echo 'lives 8192 128 | open 0'
        for ((number = 1; number <= 12; number++)); do
            printf 'commit +%02x=31 | batch %d\n' "$number" "$number"
            flush "$number"
            echo "install $number | ok"
        done
        echo 'rotate | refused 06 NothingToRotate'
        echo 'commit +0d=31 | batch 13'
        flush 13
        echo 'install 13 | refused 14 TooManyRuns'
        printf '%s\n' 'take | job 14 level 0' 'read 14 | left 0' 'build 14 1 | built 14 images 1' 'accept 14 14 | ok' 'write 14 | left 0' 'install 14 | ok'
        echo 'install 13 | ok'
        for ((number = 1; number <= 13; number++)); do printf 'get %02x | value 31\n' "$number"; done
    } >level
    scripts <level
}

# So many flushes of one put each, of the keys from 0001 on, in 11 runs of level 0 at the end and before that at most 12. What would
# be more goes down to level 1, each as a table of its own. The last job is left in `job`.
many_tables() {
    local number runs=0
    job=0
    for ((number = 1; number <= $1; number++)); do
        job=$((job + 1)) runs=$((runs + 1))
        printf 'commit +%04x=31 | batch %d\n' "$number" "$number"
        flush "$job"
        echo "install $job | ok"
        if ((runs == 12)); then
            job=$((job + 1)) runs=11
            printf '%s\n' "take | job $job level 0" "read $job | left 0" "build $job 1 | built $job images 1"
            printf '%s\n' "accept $job $job | ok" "write $job | left 0" "install $job | ok"
        fi
    done
}

# A store has 1,024 tables at most. With a table more than it may have a flush isn't installed, however often, and can be given up. As
# many as may be are opened.
as_many_tables_as_may_be() {
    local key
    {
        # The data area has room for 1,025 tables of four blocks.
        echo 'lives 33314 128 | open 0'
        many_tables 1024
        job=$((job + 1))
        echo 'commit +0401=31 | batch 1025'
        flush "$job"
        printf '%s\n' "install $job | refused 15 TooManyTables" "install $job | refused 15 TooManyTables" "drop $job | ok"
        printf '%s\n' "take | job $((job + 1)) flush" 'crash none | open 1025'
        for key in 0001 000c 000d 03f5 03f6 0400 0401; do echo "get $key | value 31"; done
        printf '%s\n' 'get 0402 | absent' 'take | job 1 flush'
    } >tables
    scripts <tables
}

# The lines of openings that are stopped twice, one pair after another, and of a third behind each pair that isn't: the fuses of the
# first are below this number, and each fuse and mask of the second is given. An opening with so many writes and syncs is whole. So
# many batches are found, and the page of all keys is this one.
stopped_openings() {
    local fuses=$1 whole=$2 batches=$3 rows=$4 masks=$5 fuse mask second
    shift 5
    for ((fuse = 0; fuse < fuses; fuse++)); do
        for mask in $masks; do
            for second; do
                printf '%s\n' 'crash none |' "fuse $fuse | $(opened_behind "$fuse")" "crash $mask |"
                printf '%s\n' "fuse ${second% *} | $(opened_behind "${second% *}")" "crash ${second#* } | open $batches"
                echo "scan empty end 64 | $rows"
            done
        done
    done
}

# What an opening answers whose fuse is this number.
opened_behind() {
    if (($1 < whole)); then echo 'refused 02 Io'; else echo "open $batches"; fi
}

# Openings of tables of two levels and a batch behind them, and of 28 tables, whose manifest takes two sectors. Each is stopped at each
# of its writes and syncs, with each mask over what pends, and the next one so again.
twice_stopped() {
    local seconds=() fuse mask number rows=rows
    for fuse in 0 1 2 3 4 5; do for mask in 0 1; do seconds+=("$fuse $mask"); done; done
    {
        echo 'lives 8192 128 | open 0'
        for number in 1 2 3 4; do
            echo "commit +61=0$number +6$number=3$number | batch $number"
            flush $number
            echo "install $number | ok"
        done
        printf '%s\n' 'take | job 5 level 0' 'read 5 | left 0' 'build 5 1 | built 5 images 1' 'accept 5 5 | ok' 'write 5 | left 0' 'install 5 | ok'
        printf '%s\n' 'commit +65=35 | batch 5' 'sync | ok' 'commit +66=36 | batch 6'
        stopped_openings 6 5 5 'rows 61=04 62=32 63=33 64=34 65=35 end' '0 1' "${seconds[@]}"
    } >twice
    scripts <twice
    for ((number = 1; number <= 29; number++)); do printf -v rows '%s %04x=31' "$rows" "$number"; done
    {
        echo 'lives 8192 128 | open 0'
        many_tables 28
        printf '%s\n' 'commit +001d=31 | batch 29' 'sync | ok'
        stopped_openings 7 6 29 "$rows end" '00 10 01 11' '2 01' '3 10' '5 10'
    } >twice
    scripts <twice
}

# Batches of 29 puts of 2,048 bytes, the first of them of this number, and so many of them. Their keys have two bytes, and rise
# from 0000 on; each byte of their values is 09, or the one that is given. A text has 59,568 bytes, and an entry 2,062, so that
# each has a data block of its own.
full_commits() {
    local number key=0 end
    for ((number = $1; number < $1 + $2; number++)); do
        printf commit
        for ((end = key + 29; key < end; key++)); do printf ' +%04x=%s{2048}' "$key" "${3:-09}"; done
        echo " | batch $number"
    done
}

# A step of reading or writing, which is made until none of so many blocks is left.
until_none_is_left() {
    local left=$2
    while ((left > 0)); do
        left=$((left > 8 ? left - 8 : 0))
        echo "$1 | left $left"
    done
}

# A life that begins with a run of 261 data blocks.
large_run() {
    echo 'lives 16384 2048 | open 0'
    full_commits 1 9
    printf '%s\n' 'rotate | ok' 'take | job 1 flush' 'build 1 4 | built 1 images 5' 'accept 1 1 | ok'
    until_none_is_left 'write 1' 276
    echo 'install 1 | ok'
}

# A run of 261 data blocks goes down to level 1 in four tables of 67 blocks, filter, index and footer among them, and one of 8.
# So many are more than the 256 that level 1 may have. Of its tables each may be merged by a job of its own, as long as there
# are slots; when one has gone down to level 2, the others are few enough.
deep_levels() {
    local number
    {
        large_run
        for number in 2 3 4; do
            echo "commit +ffff=31 | batch $((number + 8))"
            flush "$number"
            echo "install $number | ok"
        done
        echo 'take | job 5 level 0'
        until_none_is_left 'read 5' 261
        printf '%s\n' 'build 5 4 | built 5 images 5' 'accept 5 5 | ok'
        until_none_is_left 'write 5' 276
        echo 'install 5 | ok'
        for number in 6 7 8 9; do echo "take | job $number level 1"; done
        echo 'take | none'
        until_none_is_left 'read 6' 64
        printf '%s\n' 'build 6 1 | built 6 images 1' 'accept 6 6 | ok'
        until_none_is_left 'write 6' 67
        echo 'install 6 | ok'
        for number in 7 8 9; do echo "drop $number | ok"; done
        printf '%s\n' 'take | none' 'get 0000 | value 09{2048}' 'get 0104 | value 09{2048}' 'get ffff | value 31'
        printf '%s\n' 'crash none | open 12' 'get 0000 | value 09{2048}'
    } >deep
    scripts <deep
}

# A job of level 1 meets a table of level 2, and merges it with its own. A run of 261 data blocks goes down to level 1, and its first
# 64 from there to level 2. A newer run has 87 of these keys again and one behind all others: with it all of level 1 is merged
# anew, so that its first table has keys of which level 2 has older versions.
meeting_levels() {
    local number
    {
        large_run
        full_commits 10 3 0a
        printf '%s\n' 'commit +ffff=31 | batch 13' 'rotate | ok' 'take | job 2 flush' 'build 2 1 | built 2 images 2' 'accept 2 2 | ok'
        until_none_is_left 'write 2' 93
        echo 'install 2 | ok'
        for number in 3 4; do
            echo "commit +ffff=31 | batch $((number + 11))"
            flush "$number"
            echo "install $number | ok"
        done
        echo 'take | job 5 level 0'
        until_none_is_left 'read 5' 261
        printf '%s\n' 'build 5 4 | built 5 images 5' 'accept 5 5 | ok'
        until_none_is_left 'write 5' 276
        printf '%s\n' 'install 5 | ok' 'take | job 6 level 1'
        until_none_is_left 'read 6' 64
        printf '%s\n' 'build 6 1 | built 6 images 1' 'accept 6 6 | ok'
        until_none_is_left 'write 6' 67
        printf '%s\n' 'install 6 | ok' 'take | none' 'commit +ffff=31 | batch 16'
        flush 7
        printf '%s\n' 'install 7 | ok' 'take | job 8 level 0'
        until_none_is_left 'read 8' 284
        printf '%s\n' 'build 8 2 | built 8 images 5' 'accept 8 8 | ok'
        until_none_is_left 'write 8' 276
        printf '%s\n' 'install 8 | ok' 'take | job 9 level 1'
        until_none_is_left 'read 9' 128
        printf '%s\n' 'build 9 3 | built 9 images 1' 'accept 9 9 | ok'
        until_none_is_left 'write 9' 67
        printf '%s\n' 'install 9 | ok' 'take | none'
        printf '%s\n' 'get 0000 | value 0a{2048}' 'get 003f | value 0a{2048}' 'get 0040 | value 0a{2048}' 'get 0104 | value 09{2048}'
        printf '%s\n' 'crash none | open 16' 'get 0000 | value 0a{2048}' 'get 0100 | value 09{2048}' 'get ffff | value 31'
    } >meeting
    scripts <meeting
}

# A flush takes 154 of 239 data blocks, in tables of 67, 67 and 20. Of the tables of the next one the first finds room in what
# is left, and the second doesn't: the result is refused however often, and the job can be given up and taken again.
no_space() {
    {
        echo 'lives 8192 2048 | open 0'
        full_commits 1 5
        printf '%s\n' 'rotate | ok' 'take | job 1 flush' 'build 1 1 | built 1 images 3' 'accept 1 1 | ok'
        until_none_is_left 'write 1' 154
        echo 'install 1 | ok'
        full_commits 6 5
        printf '%s\n' 'rotate | ok' 'take | job 2 flush' 'build 2 1 | built 2 images 3' 'accept 2 2 | refused 13 NoSpace'
        printf '%s\n' 'write 2 | refused 11 WrongState' 'accept 2 2 | refused 13 NoSpace' 'drop 2 | ok' 'take | job 3 flush'
        echo 'get 0000 | value 09{2048}'
    } >space
    scripts <space
}

# What an accept refuses for want of room takes none, and what a job took is free once it is dropped. Of 85 blocks that are left, a
# flush with both versions of 58 keys wants 67 and 55, and finds room for the first table alone. The older versions were kept for a
# snapshot: without it the flush wants 61, once, and again behind a job that took them.
room_again() {
    {
        echo 'lives 8192 2048 | open 0'
        full_commits 1 5
        printf '%s\n' 'rotate | ok' 'take | job 1 flush' 'build 1 1 | built 1 images 3' 'accept 1 1 | ok'
        until_none_is_left 'write 1' 154
        echo 'install 1 | ok'
        full_commits 6 2
        echo 'snapshot | snapshot 1'
        full_commits 8 2
        printf '%s\n' 'rotate | ok' 'take | job 2 flush' 'build 2 1 | built 2 images 2' 'accept 2 2 | refused 13 NoSpace' 'drop 2 | ok'
        printf '%s\n' 'release 1 | ok' 'take | job 3 flush' 'build 3 1 | built 3 images 1' 'accept 3 3 | ok' 'drop 3 | ok'
        printf '%s\n' 'take | job 4 flush' 'build 4 1 | built 4 images 1' 'accept 4 4 | ok'
        until_none_is_left 'write 4' 61
        printf '%s\n' 'install 4 | ok' 'get 0000 | value 09{2048}' 'get 0090 | value 09{2048}'
    } >again
    scripts <again
}

# Compacts a file, which can't go to the end: it ends with 1, prints these numbers, and tells this lack of blocks, and what helps.
compacts_halfway() {
    local status=0
    what="compact $1"
    "$program" compact "$1" <input >output 2>errors || status=$?
    [ "$status" -eq 1 ] || fail "it ends with $status: $(cat output errors)"
    [ "$(cat output)" = "$2" ] || fail "it prints $(cat output)"
    [ "$(cat errors)" = "error: not compacted to the end: $3; dump and load move its rows into a larger file" ] || fail "it tells $(cat errors)"
    what=
    count=$((count + 1))
}

# The same by a line of `serve`, which answers this.
serves_halfway() {
    what="serve $1"
    printf 'compact\n' | "$program" serve "$1" >output 2>errors || fail "it ends with $?: $(cat errors)"
    [ "$(cat output)" = "$2" ] || fail "it answers $(cat output)"
    what=
    count=$((count + 1))
}

# A run of level 0 takes 154 of 239 blocks, in tables of 67, 67 and 20, and goes down as a whole. What comes of its 145 data blocks takes 166
# at most: one more at each of two borders between tables, 10 for their keys in indexes, and 3 for each of 3 tables; and the largest table 72:
# 64, 5 and 3. So it stays where it is, and so do as many keys again that wait for a flush: of 145 entries that don't share a block it is told
# that they take 147 at most in one table, so 149 in three, and 10 for their keys in indexes and 3 for each table.
halfway() {
    local free='85 are free, at most 85 of them side by side'
    {
        printf '%s\n' 'format half 8192 2048 | formatted blocks 239' '' 'replay half |'
        full_commits 1 5
        printf '%s\n' 'rotate | ok' 'take | job 1 flush' 'build 1 1 | built 1 images 3' 'accept 1 1 | ok'
        until_none_is_left 'write 1' 154
        echo 'install 1 | ok'
    } >space
    scripts <space
    compacts_halfway half 'generation 5 batches 5 room 2048 waiting 0 runs 1 tables 3 free 85' \
        "the next step wants up to 166 blocks, up to 72 of them side by side; $free"
    cp half served
    serves_halfway served 'whole 0 wanted 166 together 72 longest 85 generation 6 batches 5 room 2048 waiting 0 runs 1 tables 3 free 85'
    {
        echo 'replay half |'
        full_commits 6 5
        echo 'rotate | ok'
    } >space
    scripts <space
    compacts_halfway half 'generation 8 batches 10 room 2048 waiting 1 runs 1 tables 3 free 85' \
        "a flush waits, which wants up to 168 blocks, up to 72 of them side by side; $free"
    serves_halfway half 'whole 0 wanted 168 together 72 longest 85 generation 9 batches 10 room 2048 waiting 1 runs 1 tables 3 free 85'
}

# A commit may have 16 guards. A 17th is refused before all that the state decides, a full log too, but for a store that is stopped.
many_guards() {
    local sixteen='' number
    for ((number = 0; number < 16; number++)); do sixteen+='!61 '; done
    scripts <<END
lives 8192 128 | open 0
if ${sixteen}then +61=31 | batch 1
if ${sixteen}!61 then +61=31 | refused 31 TooManyGuards
if ${sixteen}then +61=31 | refused 30 GuardFailed 0
if ${sixteen//!61/?61=31}then +61=32 | batch 2
if ${sixteen//!61/?61=32}!62 then +62=32 | refused 31 TooManyGuards
get 62 | absent
crash all |
fuse 0 | refused 02 Io
if ${sixteen}!61 then +61=31 | refused 03 Stopped

lives 8192 128 | open 0
commit PUTS +1e=09{1896} | batch 1
if ${sixteen}then -01 | refused 04 LogFull
if ${sixteen}!61 then -01 | refused 31 TooManyGuards
END
}

# 10,000 commits of puts and deletes with rotations, flushes and jobs of level 0 among them, and crashes. At the end the map
# is that of a plain one. More steps of reading and writing are made than a job needs, and refused or told that none is left.
many_commits() {
    local -A value=()
    local number round=0 job=0 key
    {
        for ((number = 1; number <= 10000; number++)); do
            printf -v key %04x $((number * 7919 % 601))
            if ((number % 5 == 0)); then
                unset "value[$key]"
                echo "commit -$key"
            else
                printf -v "value[$key]" %06x "$number"
                echo "commit +$key=${value[$key]}"
            fi
            if ((number % 400 == 0)); then
                round=$((round + 1)) job=$((job + 1))
                printf '%s\n' rotate take "build $job 2" "accept $job $job" "write $job" "write $job" "install $job"
                if ((round >= 4)); then
                    job=$((job + 1))
                    printf '%s\n' take "read $job" "read $job" "build $job 3" "accept $job $job" "write $job" "write $job" "install $job"
                fi
            fi
            if ((number == 6000)); then echo 'crash none' && round=0 job=0; fi
        done
        echo 'crash none'
        for ((number = 0; number < 601; number++)); do printf 'get %04x\n' "$number"; done
    } >many
    for ((number = 0; number < 601; number++)); do
        printf -v key %04x "$number"
        if [ -n "${value[$key]:-}" ]; then echo "value ${value[$key]}"; else echo absent; fi
    done >wanted
    "$program" lives 65536 2048 <many >told 2>errors || fail "10,000 commits: $(head -c 300 errors)"
    tail -n 601 told >last
    cmp -s wanted last || fail "10,000 commits: another map: $(diff wanted last | head -n 4)"
    ! grep -v -e '^batch' -e '^ok$' -e '^open' -e '^job' -e '^built' -e '^left' -e '^value' -e '^absent$' -e '^refused 11 WrongState$' told ||
        fail "10,000 commits: other replies"
    [ "$(grep -c '^job .* level 0$' told)" -ge 15 ] && [ "$(grep -c '^job .* flush$' told)" -eq 25 ] || fail "10,000 commits: too few jobs"
    count=$((count + 1))
}

# A hundred batches of a sector each, with a sync behind every fifth, are explored. Where a write or a sync fails,
# what pends are the writes since the last sync, that one included: 9 crashes of the opening's five, 2 + 4 + 8 + 16 + 32 + 32 of
# each five batches with their sync, and 1 of the whole life. Behind each of them an opening has ten.
many_explored() {
    local number
    {
        echo "explore 8192 128 | first $((9 + 20 * 94 + 1)) second $((10 * (9 + 20 * 94 + 1))) skipped 0 wrong 0"
        for ((number = 1; number <= 100; number++)); do
            printf 'commit +%02x=31 |\n' "$number"
            if ((number % 5 == 0)); then echo 'sync |'; fi
        done
    } >explored
    scripts <explored
}

# ---- mistakes in scripts

mistakes() {
    local line told
    while IFS= read -r line; do
        case $line in '#'*) continue ;; esac
        told=${line#\"}
        told=${told%\"}
        for words in 'lives 8192 128' 'replay missing'; do
            run_on "$words" "sync\n$told\nroom\n" 2 "error: line 2 of the script can't be read: \"${told//\\/\\\\}\"\n"
        done
    done
}

runs_on_inputs() {
    local line wanted words input told
    while IFS= read -r line; do
        case $line in '' | '#'*) continue ;; esac
        wanted=${line%% *}
        line=${line#*| }
        words=${line%% | *}
        line=${line#* | }
        input=${line%% | *}
        run_on "$words" "$input" "$wanted" "${line#* | }\n"
    done
}

# A script of 10,000 lines, and one whose last line is a mistake, which leaves the file as it was.
long_scripts() {
    local lines answers
    repeat 'get 61\n' 9999
    lines=$repeated
    repeat 'absent\n' 9999
    answers=$repeated
    cp fresh long
    run_on 'replay long' "${lines}room" 0 "${answers}room 128\n"
    cp long kept
    run_on 'replay long' "${lines}rooms\n" 2 'error: line 10000 of the script can'"'"'t be read: "rooms"\n'
    run_on 'replay long' 'commit +61=31\nsync\nsyncs\n' 2 'error: line 3 of the script can'"'"'t be read: "syncs"\n'
    cmp -s long kept || fail "a mistake in a script changes the file"
}

: >input
single_runs <"$runs/words.txt"
scripts <"$runs/scripts.txt"
masks <<'END'
000 0
001 0
010 0
011 0
100 1
101 1
110 1
111 2
1 1
11100 2
none 0
all 2
END
faulting_commits <<'END'
7 00 1
7 11 1
8 00 1
8 11 2
END
faulting_openings
snapshots
full_regions
full_level
as_many_tables_as_may_be
twice_stopped
deep_levels
meeting_levels
no_space
room_again
halfway
many_guards
many_commits
many_explored
mistakes <"$runs/lines.txt"
runs_on_inputs <"$runs/inputs.txt"
long_scripts
[ "$count" -ge 360 ] || fail "only $count runs"
echo "runs.sh: $count runs end as they must, and print what they must"
