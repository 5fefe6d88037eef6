#!/usr/bin/env bash
# Looks what `lsmctl check` says of files: of those that the program left, and of some in which bytes were changed, of which an opening
# says the same where it is refused; and what a get and a scan say where a block of them holds no entries.
#
#     tests/checked.sh PROGRAM
#
# PROGRAM is a built `lsmctl`. For one of the files it needs a gigabyte of disk.
source "$(dirname "$(realpath "$0")")/common.sh"
program=$(realpath "${1:?the path of a built lsmctl}")
cd "$folder"
count=0

# Checks a file: it ends with the status, and prints the text on standard output, or on standard error where it is a refusal.
checks() {
    local wanted=$1 file=$2 text=$3 status=0 told=output silent=errors
    cp "$file" before
    "$program" check "$file" >output 2>errors || status=$?
    [ "$status" -eq "$wanted" ] || fail "check $file ended with $status: $(cat output errors)"
    case $text in refused*) told=errors silent=output ;; esac
    [ "$(cat "$told")" = "$text" ] || fail "check $file says '$(cat "$told")', not '$text'"
    [ ! -s "$silent" ] || fail "check $file also says '$(cat "$silent")'"
    cmp -s before "$file" || fail "check $file changed it"
    count=$((count + 1))
}

# Checks a file that is refused. An opening of it is refused likewise, and changes nothing.
refuses() {
    local file=$1 text=$2 status=0
    checks 1 "$file" "$text"
    "$program" get "$file" 61 >output 2>errors || status=$?
    [ "$status" -eq 1 ] && [ "$(cat output errors)" = "$text" ] || fail "get $file 61 ended with $status: $(cat output errors)"
    cmp -s before "$file" || fail "get $file 61 changed it"
}

# Writes bytes, as hex, into a file from an offset within a sector on.
patch() {
    local file=$1 sector=$2 offset=$3 bytes=$4
    # shellcheck disable=SC2001
    printf '%b' "$(sed 's/../\\x&/g' <<<"$bytes")" | dd of="$file" bs=1 seek=$((sector * 512 + offset)) conv=notrunc status=none
}

# Changes bytes of a file, each time of a copy, which is then refused. A line has a sector, counted from the one that is given, an
# offset in it and bytes, once or twice, and behind a # what they make of it.
damages() {
    local file=$1 from=$2 text=$3 changes sector offset bytes
    while IFS='#' read -r changes what; do
        what=${what# }
        cp "$file" other
        while read -r sector offset bytes changes <<<"$changes" && [ -n "$sector" ]; do
            patch other $((from + sector)) "$offset" "$bytes"
        done
        refuses other "$text"
    done
    what=
}

# Whether a sector of a file has these bytes, and then zeros.
holds() {
    local found
    found=$(od -An -v -tx1 -j $(($2 * 512)) -N 512 "$1" | tr -d ' \n')
    [ "$found" = "$(printf '%-1024s' "$3" | tr ' ' 0)" ] || fail "sector $2 of $1 has other bytes: $found"
}

# A fresh file, with the steps of a script made on it.
made() {
    rm -f "$1"
    "$program" format "$1" 8192 128 >output || fail "format $1"
    "$program" replay "$1" >output || fail "replay $1"
}

# The steps that flush what is in memory, as the job of this number.
flush() {
    printf 'rotate\ntake\nbuild %s 1\naccept %s %s\nwrite %s\ninstall %s\n' "$1" "$1" "$1" "$1" "$1"
}

# The word of 2,048 bytes of zeros.
zeros_word() {
    head -c 4096 /dev/zero | tr '\0' 0
}

# ---- what the program left

"$program" format fresh 8192 128 >output || fail "format"
checks 0 fresh 'ok generation 1 batches 0 tables 0 entries 0 free 959'

# A flush keeps what its cuts ask for, and the batches that came while it was made are in the log.
made snapshots <<'SCRIPT'
commit +61=31
commit +61=32
rotate
take
snapshot
commit +61=33
snapshot
commit +61=34
build 1 1
accept 1 1
write 1
install 1
SCRIPT
checks 0 snapshots 'ok generation 4 batches 4 tables 1 entries 1 free 955'

# A delete that a flush keeps, since older versions may lie below, and a merge that drops it with what it deletes.
{ echo 'commit +61=31'; flush 1; echo 'commit -61'; flush 2; } | made deleted
checks 0 deleted 'ok generation 6 batches 2 tables 2 entries 2 free 951'

# A batch whose log sector is lost isn't counted. Once an opening has counted it, the next log begins with the number behind it,
# so that it is missed.
echo 'commit +61=31' | made lone
checks 0 lone 'ok generation 2 batches 1 tables 0 entries 0 free 959'
holds lone 0 4c534d53000200000000000000020000200000800001
holds lone 1 4c534d53000200000000000000010000200000800001
holds lone 2 4c534d4d000000000000000200000000000000000000000000000001010000000000000000000000020000000000000001
holds lone 130 4c534d4c000000000000000200000000000000010000000100080000000000000001010161000131
cp lone other && patch other 130 0 00
checks 0 other 'ok generation 2 batches 0 tables 0 entries 0 free 959'
[ "$("$program" get other 61)" = absent ] || fail "get other finds a batch that is lost"
cp lone opened
[ "$("$program" get opened 61)" = 'value 31' ] || fail "get opened doesn't find its batch"
cp opened other && patch other 130 0 00
refuses other 'refused 23 BadManifest'

# An opening may come to the last generation: superblock and manifest say 2^63 - 1.
cp fresh last && patch last 1 6 7fffffffffffffff && patch last 66 4 7fffffffffffffff
"$program" stat last >output 2>errors || fail "stat last: $(cat errors)"
[ "$(cat output)" = 'generation 9223372036854775808 batches 0 room 128 waiting 0 runs 0 tables 0 free 959' ] || fail "stat last says $(cat output)"

# There nothing is wrong with an image, and no opening can follow: the superblock and its manifest say 2^63.
cp fresh last && patch last 1 0 00000000000000000000000000000000000000000000
patch last 0 0 4c534d53000280000000000000000000200000800001
patch last 2 0 4c534d4d80000000000000000000000000000000000000000000000100000000
checks 0 last 'ok generation 9223372036854775808 batches 0 tables 0 entries 0 free 959'
status=0
"$program" get last 61 >output 2>errors || status=$?
[ "$status" -eq 1 ] && [ "$(cat output errors)" = 'refused 20 Exhausted' ] || fail "get last ended with $status: $(cat output errors)"

# ---- what is no store's

{ echo 'commit +61=31'; flush 1; } | made table
checks 0 table 'ok generation 4 batches 1 tables 1 entries 1 free 955'

head -c $((8192 * 512)) /dev/zero >zeros
refuses zeros 'refused 21 NotAStore'
patch zeros 0 0 ff
refuses zeros 'refused 22 BadSuper'
cp table other && truncate -s $((8200 * 512)) other
refuses other 'refused 25 BadGeometry'
truncate -s $((8191 * 512)) other
refuses other 'refused 25 BadGeometry'
cp table other && truncate -s $((8192 * 512 - 1)) other
checks 1 other $'refused 02 Io\nerror: the length of the file is not a whole number of sectors'

# Superblocks of generation 2 and of generation 1, of which the first is changed.
damages lone 0 'refused 22 BadSuper' <<'END'
0 0 00  # another magic
0 5 00  # a version that isn't
0 5 03  # another
0 5 01  # version 1 after version 2
0 13 04 # generation 4 beside generation 1
END

# The data block of the table, in block 0, says that it has no entry. An opening reads no data block.
cp table other && patch other 514 0 0000
checks 1 other 'refused 24 BadTable'

# Two entries take a data block each. The first block has another end than the index says, and the second says that it has no
# entry: all blocks of a table are read before its entries are judged.
{
    echo "commit +61=$(zeros_word) +62=$(zeros_word)"
    flush 1
} | made two
checks 0 two 'ok generation 4 batches 1 tables 1 entries 2 free 954'
cp two other && patch other 514 11 02
checks 1 other 'finding Entries table 1'
patch other 522 0 0000
checks 1 other 'refused 24 BadTable'

# A get or a scan is refused where a block that it comes to holds no entries, for the key of the next row too. What stands behind
# the entries of a block is judged by a scan that goes past them, and not by a get. Three entries take a block each.
says() {
    local text=$1 wanted=0 status=0
    shift
    case $text in refused*) wanted=1 ;; esac
    "$program" "$@" >output 2>errors || status=$?
    [ "$status" -eq "$wanted" ] && [ "$(cat output errors)" = "$text" ] || fail "$* ended with $status: $(cat output errors)"
}
value=$(zeros_word)
{
    echo "commit +61=$value +62=$value +63=$value"
    flush 1
} | made blocks
cp blocks other && patch other 514 0 0000
says 'refused 24 BadTable' get other 61
says "value $value" get other 62
says 'refused 24 BadTable' scan other empty 1
cp blocks other && patch other 522 0 0000
says 'refused 24 BadTable' scan other empty 1
says "63 $value"$'\nend' scan other 63 1
cp blocks other && patch other 530 0 0000
says "61 $value"$'\nnext 62' scan other empty 1
says 'refused 24 BadTable' scan other empty 64
cp blocks other && patch other 529 511 01
says "value $value" get other 62
says 'refused 24 BadTable' scan other empty 64

# A sector of the first log is of an epoch that hasn't come yet.
cp table other && patch other 130 11 09
checks 1 other 'refused 23 BadManifest'

# ---- manifests and tables that are none

# Two runs of level 0 and two tables of level 1, one table after another from block 0 on, and a batch in the log of region 0. Flushes
# make four runs, of which the manifest then puts the older two into level 1, in the order of their keys.
{
    echo 'commit +61=31' && flush 1
    echo 'commit +63=33 +64=34' && flush 2
    echo 'commit +61=35 +63=36' && flush 3
    echo 'commit +61=37' && flush 4
    echo 'commit +62=32'
} | made four
patch four 2 29 02
patch four 2 89 0000000000000001010000000000010100010000
patch four 2 109 0000000000000002010000000004010100020000
checks 0 four 'ok generation 10 batches 5 tables 4 entries 6 free 943'
cp four opened
while read -r key value; do
    [ "$("$program" get opened "$key")" = "$value" ] || fail "get opened $key"
done <<'END'
60 absent
61 value 37
62 value 32
63 value 36
64 value 34
65 absent
END

# Magic, generation, base, next number, and the counts of log records, of runs and of table records take 32 bytes. A log record of
# 17 follows: region, epoch and first batch. Each of the four table records has 20, the first from byte 49 on: number, level, run,
# first block, data blocks, index blocks, entries and deletes. The text ends at byte 129.
damages four 2 'refused 23 BadManifest' <<'END'
0 0 00             # another magic
0 11 0b            # another generation
0 19 05            # a base behind the first batch
0 27 04            # the last number is the next
0 28 00            # no log record
0 29 0d            # more runs than may be
0 29 01            # a run above the count
0 29 03            # a run that isn't listed
0 31 03            # three tables
0 31 05            # five tables
0 32 03            # a region that isn't
0 40 00            # epoch 0
0 40 0b            # an epoch above the generation
0 48 06            # a first batch that isn't the next
0 83 02            # an extent that ends in another
0 82 07            # an extent that begins in another
0 122 08           # one extent twice
0 120 01           # an extent behind the data area
0 61 03bc          # an extent that ends behind the data area
0 117 05           # a level above the last
0 76 04            # a number twice
0 116 05           # the next number
0 63 00            # no data block
0 63 41            # more data blocks than a table has
0 64 00            # no index block
0 64 06            # more index blocks than a table has
0 66 00            # no entry
0 65 0c81          # more entries than a table has
0 68 02            # more deletes than entries
0 129 01           # a byte behind the text
0 29 03 0 78 02    # a run that is left out
0 58 01 0 78 00    # the later run first
0 57 01 0 77 00    # the later level first
0 98 01 0 118 01   # a run in level 1
END

# Records of other tables than stand there.
damages four 2 'refused 24 BadTable' <<'END'
0 56 01 0 96 04    # the numbers of two tables in each other's places
0 116 00           # another number
0 63 02            # another data block
0 64 02            # another index block
0 66 03            # another entry
0 65 01            # more entries
0 62 0d            # the block behind the first
0 62 14            # an extent of zeros
0 102 04 0 122 00  # the extents of two tables in each other's places
END

# Each table has its index from its sector 16 on and its footer from sector 24 on. A footer has magic, number, data blocks, entries, the
# length of the index and the first key; the index has the last key and the number of the last version.
for from in 514 546 578 610; do
    damages four $from 'refused 24 BadTable' <<'END'
24 0 4d    # the footer's magic
24 11 09   # another number
24 13 02   # two data blocks
24 13 00   # no data block
24 17 03   # more entries
24 17 00   # no entry
24 21 0b   # a longer index
24 21 09   # a shorter index
24 22 00   # a first key without bytes
24 23 65   # a first key behind the last
24 24 01   # a byte behind the footer
31 511 01  # the last byte of the footer's block
16 0 00    # a last key without bytes
16 0 02    # a longer last key
16 1 60    # a last key before the first
16 9 00    # a version of batch 0
16 2 81    # a version behind the last batch
16 10 01   # a byte behind the index
23 511 01  # the last byte of the index's block
END
    for block in 16 24; do
        cp four other && dd if=/dev/zero of=other bs=512 seek=$((from + block)) count=8 conv=notrunc status=none
        refuses other 'refused 24 BadTable'
    done
done

# A region that was opened again has lost its batch; with a footer that is none, for tables are opened before.
damages opened 130 'refused 23 BadManifest' <<<'0 0 00 # no batch'
damages opened 0 'refused 24 BadTable' <<<'130 0 00 538 0 00 # no batch and no footer'

# What an opening doesn't read: the data blocks of the newest table and of the last one say that they have no entry.
cp four other && patch other 610 0 0000 && patch other 546 0 0000
while read -r key said; do
    [ "$("$program" get other "$key" 2>&1)" = "$said" ] || fail "get other $key"
done <<'END'
61 refused 24 BadTable
64 refused 24 BadTable
62 value 32
63 value 36
END

# The index of three data blocks, from sector 546 on: three records of ten bytes, a key and a number. An older version of a key may
# stand behind a newer one.
{ echo "commit +61=$(zeros_word) +62=$(zeros_word) +63=$(zeros_word)"; flush 1; } | made blocks
checks 0 blocks 'ok generation 4 batches 1 tables 1 entries 3 free 953'
damages blocks 546 'refused 24 BadTable' <<'END'
0 11 64          # the second key behind the third
0 11 60          # the second key before the first
0 11 61          # one version twice
0 11 61 0 19 02  # a newer version behind an older one
END
cp blocks other && patch other 546 11 61 && patch other 546 9 02
"$program" stat other >output 2>errors || fail "an older version behind a newer one: $(cat errors)"

# A file with two tables in one run: so many runs of level 0, the level, and what is put into each of the tables. Two flushes make two
# runs, the first one that of the second table.
one_run() {
    { echo "commit $5" && flush 1 && echo "commit $4" && flush 2; } | made "$1"
    patch "$1" 2 29 "$2" && patch "$1" 2 57 "$3"00 && patch "$1" 2 77 "$3"00
}
one_run run 00 01 '+61=31' '+63=33'
checks 0 run 'ok generation 6 batches 2 tables 2 entries 2 free 951'
while IFS='#' read -r runs level first second what; do
    one_run run "$runs" "$level" "$first" "$second"
    refuses run 'refused 24 BadTable'
done <<'END'
00#01#+61=31 +63=33#+63=33 +64=34# a key in two tables
00#01#+61=31 +64=34#+62=32# a table within another
00#04#+63=33#+61=31# the later keys first
01#00#+63=33#+61=31# in a run of level 0
00#02#+6161=31#+61=31# a beginning behind its key
END
what=

# The only entry of the oldest of four runs has another key than its table is told to have. What a merge makes of it doesn't lie within
# what the merge took in, so it isn't put in.
for number in 1 2 3 4; do echo 'commit +61=31' && flush $number; done | made foreign
patch foreign 514 3 70
printf '%s\n' take 'read 1' 'build 1 1' 'accept 1 1' 'write 1' 'install 1' 'install 1' 'drop 1' take >script
"$program" replay foreign <script >output || fail "replay foreign"
printf '%s\n' 'job 1 level 0' 'left 0' 'built 1 images 1' ok 'left 0' 'refused 24 BadTable' 'refused 24 BadTable' ok 'job 2 level 0' >wanted
cmp -s wanted output || fail "replay foreign prints $(cat output)"

# ---- what is wrong with a table

# The entry has another number than the index says; both have one above the base; bits of the key are not set in the filter. Of
# several faults the first of these is told: Entries, Order, Filter, Versions.
cp table other && patch other 514 11 02
checks 1 other 'finding Entries table 1'
patch other 530 9 02
checks 1 other 'finding Versions table 1'
patch other 528 401 00
checks 1 other 'finding Filter table 1'
cp table other && patch other 528 401 00
checks 1 other 'finding Filter table 1'
says absent get other 61

# The second of three keys is above the third.
{ echo 'commit +61=31 +62=32 +63=33'; flush 1; } | made three
checks 0 three 'ok generation 4 batches 1 tables 1 entries 3 free 955'
cp three other && patch other 514 17 64
checks 1 other 'finding Order table 1'
patch other 528 401 00
checks 1 other 'finding Order table 1'

# The footer tells three entries. The second is taken out of the block, which says two and ends as the index tells; then it says
# four, where the third comes twice.
third=0163000000000000000101000131
nothing=0000000000000000000000000000
cp three other && patch other 514 0 0002 && patch other 514 16 "$third$nothing"
checks 1 other 'finding Entries table 1'
cp three other && patch other 514 0 0004 && patch other 514 44 "$third"
checks 1 other 'finding Entries table 1'

# The first key is another than the footer's, and the blocks are as many and end as told.
cp three other && patch other 514 3 60
checks 1 other 'finding Entries table 1'

# The older table has a version of the key that is as new as that in the newer one.
{ echo 'commit +61=31'; flush 1; echo 'commit +61=32'; flush 2; } | made newer
checks 0 newer 'ok generation 6 batches 2 tables 2 entries 2 free 951'
cp newer other && patch other 514 11 02 && patch other 530 9 02
checks 1 other 'finding Versions table 1'

# Where both tables lack a bit of their filters, that of the newer run, which the manifest names first, is told.
cp newer other && patch other 528 401 00 && patch other 560 401 00
checks 1 other 'finding Filter table 2'

# The put becomes a delete, of which the manifest doesn't tell. Then the manifest tells of a delete that isn't one, and of more
# deletes than entries. The count of deletes stands behind 67 bytes of the manifest, in sector 2.
deleted=02000000
cp table other && patch other 514 12 $deleted
checks 1 other 'finding Entries table 1'
patch other 2 67 0001
checks 0 other 'ok generation 4 batches 1 tables 1 entries 1 free 955'
cp table other && patch other 2 67 0001
checks 1 other 'finding Entries table 1'
patch other 2 67 0002
checks 1 other 'refused 23 BadManifest'

# ---- version 1 of the format

# With a table without deletes alone, a file of version 1 differs in the versions of its superblocks: version 1 has zeros where
# the count of the last table would stand. It may not come after version 2.
cp table old && patch old 0 4 0001 && patch old 1 4 0001
checks 0 old 'ok generation 4 batches 1 tables 1 entries 1 free 955'
cp table other && patch other 1 4 0001
checks 0 other 'ok generation 4 batches 1 tables 1 entries 1 free 955'
cp table other && patch other 0 4 0001
checks 1 other 'refused 22 BadSuper'

# Data blocks are counted as an opening counts them: one that spells no entries, and one that spells another than the record says.
damages old 514 'refused 24 BadTable' <<'END'
0 0 0000                                   # no entries
0 0 0002 0 16 01610000000000000001020000 # two entries, of one
END

# What is wrong with a table is found in it too.
cp old other && patch other 530 9 02
checks 1 other 'finding Entries table 1'
cp old other && patch other 528 401 00
checks 1 other 'finding Filter table 1'

# The first opening writes version 2, with the deletes of the table.
counted() {
    local file=$1 version=$2 deletes=$3 found
    found=$(od -An -v -tx1 -j $((512 + 4)) -N 10 "$file" | tr -d ' \n')$(od -An -v -tx1 -j $((66 * 512 + 65)) -N 4 "$file" | tr -d ' \n')
    [ "$found" = "${version}00000000000000050001$deletes" ] || fail "$file has another version or other deletes: $found"
}
cp old other && patch other 514 12 $deleted
checks 0 other 'ok generation 4 batches 1 tables 1 entries 1 free 955'
for file in old other; do "$program" get "$file" 61 >"$file.value" || fail "get $file"; done
[ "$(cat old.value other.value | tr '\n' ' ')" = 'value 31 absent ' ] || fail "an old file has another map: $(cat old.value other.value)"
counted old 0002 0000
counted other 0002 0001
checks 0 old 'ok generation 5 batches 1 tables 1 entries 1 free 955'
checks 0 other 'ok generation 5 batches 1 tables 1 entries 1 free 955'

# ---- the largest device

# A flush of 160,000 deletes is cut into 50 tables of 3,200 entries. An entry takes 15 bytes and a block has room for 272 of them, so
# a table has twelve data blocks, and filter, index and footer: 500 tables take 7,500 of 130,287 blocks. The format, ten openings,
# ten rotations and ten installs have a generation each.
largest() {
    local round batch step first=0
    "$program" format largest 1048576 2048 >output || fail "format largest"
    for ((round = 0; round < 10; round++)); do
        {
            for ((batch = 0; batch < 16; batch++)); do
                printf 'commit'
                printf ' -%06x' $(seq "$first" $((first + 9999)))
                echo
                first=$((first + 10000))
            done
            printf '%s\n' rotate take 'build 1 4' 'accept 1 1'
            for ((step = 0; step < 94; step++)); do echo 'write 1'; done
            echo 'install 1'
        } >script
        "$program" replay largest <script >output || fail "replay largest"
        [ "$(tail -n 2 output | tr '\n' ' ')" = 'left 0 ok ' ] || fail "replay largest prints $(tail -n 2 output)"
    done
    checks 0 largest 'ok generation 31 batches 160 tables 500 entries 1600000 free 122787'
}
largest

echo "checked.sh: $count checks say what they should, and change nothing"
