#!/usr/bin/env bash
# Lets calls of a real file fail, one in each run, and looks that the run is refused, and that the next opening finds all that was synced,
# and no batch in part.
#
#     tests/faults.sh PROGRAM [FIRST]
#
# PROGRAM is a built `lsmctl`. Of each kind of call of a run the FIRST ones fail (10), each in a run of its own, and as many of the
# others. `strace` makes them fail: a call that fails so isn't made. A `format` that is refused has to leave the folder as it was, unless it
# is the last sync of the folder that failed: then the new file may have its name already. A refusal has to name the system's error in a
# second line, and in no other.
source "$(dirname "$(realpath "$0")")/common.sh"
program=$(realpath "${1:?the path of a built lsmctl}")
first=${2:-10}
cd "$folder"
traces 'faults of a real file' || exit 0

# What the system says of an error.
declare -A cause=([EIO]='Input/output error' [ENOSPC]='No space left on device' [EROFS]='Read-only file system' [EDQUOT]='Disk quota exceeded')
wanted=0 faults=0
# The calls of a file that may fail. Of those of the folder and of names only `format` has any.
kinds=(pread64 pwrite64 fdatasync fsync ftruncate fallocate rename renameat renameat2 linkat)

# ---- runs

# Runs the program on words with its calls of these paths traced, and with more words of strace. Leaves `status`, and what was printed in
# out and err.
traced() {
    local more=$1
    shift
    status=0
    # shellcheck disable=SC2086 # The words are parted by spaces.
    timeout 120 strace -f -qq -o trace "${paths[@]}" $more "$program" "$@" <input >out 2>err || status=$?
}

# Leaves in `calls` how many calls of each kind a run makes that doesn't fail.
declare -A calls
count_calls() {
    local kind
    begin
    traced "-e trace=$(IFS=, && echo "${kinds[*]}")" "$@"
    [ "$status" -eq 0 ] || fail "$*: it ends with $status where no call fails: $(cat err)"
    cp out faultless
    for kind in "${kinds[@]}"; do calls[$kind]=$(grep -c "^[0-9]* *$kind(" trace || true); done
}

# The places of the calls that fail, of so many.
sample() {
    local count=$1 place step
    step=$((count > 2 * first ? (count - first) / first : 1))
    for ((place = 1; place <= count; place += place < first ? 1 : step)); do echo "$place"; done
}

# fails KIND HOW PLACE WORDS..: a run with a fault at that call of its kind.
fails() {
    local kind=$1 how=$2 place=$3
    shift 3
    what="call $place of $kind: $how"
    begin
    traced "-e trace=$kind -e inject=$kind:$how:when=$place" "$@"
    # What isn't made can't fail, as a call of a job that was given up.
    if ! grep -q INJECTED trace; then fail "$1: the call isn't made"; fi
    faults=$((faults + 1))
}

# The run was refused with a fault, and the second line names the error. How far a load is stands before.
is_refused() {
    local error=${1:-}
    [ "$status" -eq 1 ] || fail "it ends with $status, and prints $(head -c 300 out err)"
    grep -v ' rows loaded$' err >told || fail "it tells nothing"
    case $(head -n 1 told) in
    'refused 02 Io' | 'refused 03 Stopped') ;;
    *) fail "it is told as $(head -c 300 told)" ;;
    esac
    if [ "$(wc -l <told)" -ne 2 ] || ! sed -n 2p told | grep -q "^error: .*${error:+${cause[$error]}}"; then
        fail "the system's error is not named: $(cat told)"
    fi
}

# Leaves in `rows` what the next opening finds, in the sound image of a store.
opens() {
    "$program" check store >said 2>&1 || fail "then check says $(head -c 300 said)"
    grep -q '^ok ' said || fail "then check says $(head -c 300 said)"
    "$program" dump store >rows 2>said || fail "then dump says $(head -c 300 said)"
}

# Each kind of fault at the calls of a run: a failing one, and one that moves no byte. Behind each of them LOOK judges.
all_faults() {
    local look=$1 kind place errors
    shift
    count_calls "$@"
    [ "$1" = check ] || [ "${calls[fdatasync]}" -gt 0 ] || fail "$1 syncs nothing"
    for kind in "${kinds[@]}"; do
        for place in $(sample "${calls[$kind]}"); do
            # Each error in turn; all of them at the first call.
            errors=(EIO ENOSPC EROFS EDQUOT)
            case $kind in flock | lseek | pread64 | f*sync | rename* | linkat) errors=(EIO) ;; esac
            [ "$place" -eq 1 ] || errors=("${errors[place % ${#errors[@]}]}")
            for error in "${errors[@]}"; do
                fails "$kind" "error=$error" "$place" "$@"
                "$look" "$kind" "$error"
            done
            # A read or a write of no byte, and one that a signal interrupts. It may be made again.
            if [ "$place" -le 2 ]; then
                case $kind in pread64 | pwrite64)
                    fails "$kind" retval=0 "$place" "$@"
                    "$look" "$kind" ''
                    ;;
                esac
                fails "$kind" error=EINTR "$place" "$@"
                if [ "$status" -eq 0 ]; then "$look" again ''; else "$look" "$kind" ''; fi
            fi
        done
    done
    what=
    echo "faults.sh: $1: $(for kind in "${kinds[@]}"; do [ "${calls[$kind]}" -eq 0 ] || printf '%s of %s, ' "${calls[$kind]}" "$kind"; done)of which $((faults - wanted)) were made to fail"
    wanted=$faults
}

# ---- format

# Over a store, and where there is no file.
: >input
begin() {
    rm -rf room
    mkdir room
    if [ "$over" = yes ]; then cp base room/F; fi
}
of_format() {
    if [ "$1" = again ]; then return; fi
    is_refused "$2"
    if [ "$1" = fsync ] && "$program" check room/F >said 2>&1 && grep -q ' batches 0 ' said; then
        # The new file is whole and has its name: what failed is the sync of the folder behind that.
        [ "$(ls -A room)" = F ] || fail "a refused format leaves $(ls -A room)"
    elif [ "$over" = yes ]; then
        [ "$(ls -A room)" = F ] && cmp -s base room/F || fail "a refused format leaves another file: $(ls -A room)"
    else
        [ -z "$(ls -A room)" ] || fail "a refused format leaves $(ls -A room)"
    fi
}

# ---- a store with synced rows

# Batches of two rows with one value, which take three sectors of the log each: 61NN has what 62NN has. Then some single rows.
"$program" format base 8192 128 >out
for ((number = 1; number <= 20; number++)); do printf 'commit +61%02x=%0600d +62%02x=%0600d\n' "$number" "$number" "$number" "$number"; done >input
"$program" serve base <input >out
for ((number = 1; number <= 4; number++)); do "$program" put base "64$(printf %02x "$number")" 31 >out; done
cp base copy
"$program" dump copy >synced
[ "$(wc -l <synced)" -eq 44 ] || fail "the store has $(wc -l <synced) rows"

paths=()
kinds=("${kinds[@]:1}") # The loader reads by pread64, and a format doesn't.
for over in yes no; do all_faults of_format format room/F 8192 128; done

# ---- runs on a store

kinds=(openat flock lseek pread64 "${kinds[@]}") # Those of an opening too.
paths=(-P "$folder/store")
begin() {
    cp base store
}

# The rows are just those of before. A read of several sectors that fails is made once more for the first of them, so that it may go well.
of_reading() {
    if [ "$1" = pread64 ] && [ "$status" -eq 0 ]; then
        cmp -s out faultless || fail "it prints $(head -c 300 out)"
    elif [ "$1" != again ]; then
        is_refused "$2"
    fi
    opens
    cmp -s synced rows || fail "then there are other rows: $(diff synced rows | head -n 3 | cut -c 1-100)"
}
: >input
all_faults of_reading get store 6101
all_faults of_reading check store

# A fault of a read within a job isn't told: the job is given up.
is_refused_or_read() {
    if [ "$1" = again ] || { [ "$1" = pread64 ] && [ "$status" -eq 0 ]; }; then return; fi
    is_refused "$2"
}
of_compact() {
    # It doesn't get to the end then, and tells so.
    if [ "$1" = pread64 ] && grep -q '^error: not compacted to the end: .* was not finished$' err; then
        [ "$status" -eq 1 ] && grep -q '^generation ' out || fail "it ends with $status, and prints $(head -c 300 out err)"
    else
        is_refused_or_read "$@"
    fi
    opens
    cmp -s synced rows || fail "then there are other rows: $(diff synced rows | head -n 3 | cut -c 1-100)"
}
all_faults of_compact compact store

# A put that is refused may be there or not, and one that is answered is.
of_put() {
    is_refused_or_read "$@"
    opens
    if grep -q '^6301 31$' rows; then sed -i '/^6301 31$/d' rows; else [ "$status" -ne 0 ] || fail "then an answered put is lost"; fi
    cmp -s synced rows || fail "then there are other rows: $(diff synced rows | head -n 3 | cut -c 1-100)"
}
all_faults of_put put store 6301 31

# Of rows that are loaded, a beginning is there, all where it was answered.
for ((number = 1; number <= 120; number++)); do printf '65%04x %01200d\n' "$number" "$number"; done >rows_to_load
cp rows_to_load input
of_load() {
    local count
    is_refused_or_read "$@"
    opens
    count=$(grep -c '^65' rows || true)
    [ "$status" -ne 0 ] || [ "$count" -eq 120 ] || fail "it is answered, and then $count of 120 rows are there"
    { cat synced && head -n "$count" rows_to_load; } | cmp -s - rows || fail "then $count rows are there that are no beginning"
}
all_faults of_load load store

# Batches of two rows with one value, with a sync behind every tenth. In the file both have the value of one batch, which is not before the
# last that was synced by its answers.
for ((number = 1; number <= 60; number++)); do
    printf 'commit +6301=%0600d +6302=%0600d\n' "$number" "$number"
    if ((number % 10 == 0)); then echo sync; fi
done >input
of_serve() {
    local synced_to last values
    # A store that a failed write or sync has stopped is told at the end too. After a read that failed it goes on.
    is_refused_or_read "$@"
    [ "$status" -eq 0 ] || is_refused "$2"
    synced_to=$(awk '/^batch/ { batch++ } /^ok/ { synced = batch } END { print synced + 0 }' out)
    opens
    mapfile -t values < <(sed -n 's/^630[12] 0*//p' rows)
    grep -v '^630[12] ' rows | cmp -s synced - || fail "then there are other rows: $(diff synced rows | head -n 3 | cut -c 1-100)"
    [ "${values[0]:-0}" = "${values[1]:-0}" ] || fail "then a batch is there in part: ${values[*]}"
    last=${values[0]:-0}
    [ "$last" -ge "$synced_to" ] || fail "then batch $last is the last, and $synced_to were synced"
    grep -q '^refused' out || [ "$status" -ne 0 ] || [ "$last" -eq 60 ] || fail "all is answered, and then batch $last is the last"
}
all_faults of_serve serve store

echo "faults.sh: $faults calls failed, each in a run of its own; all that was synced was there at the next opening, and no batch in part"
