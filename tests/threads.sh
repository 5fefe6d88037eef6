#!/usr/bin/env bash
# Counts the threads that a merge starts, also one of a worker, and looks that the caller merges where none can be started.
#
#     tests/threads.sh PROGRAM
#
# PROGRAM is a built `lsmctl`. `strace` counts its threads, and refuses them.
source "$(dirname "$(realpath "$0")")/common.sh"
program=$(realpath "${1:?the path of a built lsmctl}")
cd "$folder"
traces 'threads of merges' || exit 0

# A flush of eight keys, the result of which is built in so many parts.
flush_in() {
    printf '%s\n' 'commit +61=31 +62=32 +63=33 +64=34 +65=35 +66=36 +67=37 +68=38' rotate take "build 1 $1" 'accept 1 1' 'write 1' 'install 1' \
        'crash none' 'scan 62 68 64'
}
printf '%s\n' 'open 0' 'batch 1' ok 'job 1 flush' 'built 1 images 1' ok 'left 0' ok 'open 1' \
    'rows 62=32 63=33 64=34 65=35 66=36 67=37 end' >wanted

# merge PARTS WORDS..: makes that flush under strace with more words, and leaves in `asked` how many threads it asked for, and in `started`
# how many it was given.
merge() {
    local parts=$1
    shift
    flush_in "$parts" >steps
    strace -f -qq -o trace -e trace=clone,clone3 "$@" "$program" lives 8192 128 <steps >out 2>err || fail "it ends with $?: $(cat err)"
    cmp -s wanted out || fail "other replies: $(diff wanted out | head -n 4)"
    asked=$(grep -Ec 'clone3?\(' trace || true)
    started=$(grep -Ec 'clone3?(\(| resumed).*= [0-9]+$' trace || true)
}

for parts in 1 2 3 4 5 6 7 8; do
    what="$parts parts"
    merge "$parts"
    # The caller merges one of the parts.
    [ "$asked $started" = "$((parts - 1)) $((parts - 1))" ] || fail "of $asked threads $started start"
    what="$parts parts, and no thread"
    merge "$parts" -e inject=clone,clone3:error=EAGAIN
    [ "$asked $started" = "$((parts - 1)) 0" ] || fail "of $asked threads $started start"
done

# A storm of one client, which rotates once: its worker flushes that, and builds the result in four parts. Where the client has to wait
# for a processor, the worker may take all of its turns before that, and the storm is tried again: on a busy machine one in ten shows it.
storm() {
    strace -f -qq -o trace -e trace=clone,clone3 "$program" storm 1 100 "$1" >out 2>err || fail "it ends with $?: $(cat err)"
    grep -Ec 'clone3?\(' trace || true
}
what='a storm'
without=$(storm 0)
for ((try = 1; try <= 300; try++)); do
    more=$(($(storm 1) - without))
    [ "$more" -eq 1 ] || break
done
[ "$more" -eq 4 ] || fail "its worker is a thread more, and starts $((more - 1)) for the parts"

echo "threads.sh: a merge starts a thread for each part but one, and is done where none starts"
