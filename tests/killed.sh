#!/usr/bin/env bash
# Kills `lsmctl` at arbitrary points and looks what the file holds: the image of a store, with every put that was
# acknowledged, and of the put that was killed everything or nothing.
#
#     tests/killed.sh PROGRAM [KILLS]
#
# PROGRAM is a built `lsmctl`. It goes on until KILLS processes (150) were killed, however long that takes; at least one of twenty must
# be. A killed process is no power cut: what was written to the file stays with the system, in the order of the calls.
source "$(dirname "$(realpath "$0")")/common.sh"
program=$(realpath "${1:?the path of a built lsmctl}")
kills=${2:-150}
cd "$folder"
exec {silence}<> <(:)

# Runs the program and sends it SIGKILL after up to `span` microseconds. Leaves `status`, and what it printed in out and err.
# The span follows how long the program takes, so that about half of the processes are killed, at any point of their run.
span=8000
killed=0
run_and_kill() {
    local delay process
    delay=$(((RANDOM * 32768 + RANDOM) % span))
    # A process that is killed before it is `lsmctl` has opened neither file.
    : >out
    : >err
    "$program" "$@" >out 2>err &
    process=$!
    read -r -t "$(printf '%d.%06d' $((delay / 1000000)) $((delay % 1000000)))" -u "$silence" || true
    kill -KILL "$process" 2>/dev/null || true
    status=0
    wait "$process" 2>/dev/null || status=$?
    if [ "$status" -eq 137 ]; then
        killed=$((killed + 1))
        span=$((span + span / 8))
    else
        span=$((span - span / 8 + 8))
    fi
}

# The puts of one file: the value of put i, and whether it has to stand: it was acknowledged, or found.
declare -a value stands

# Looks up every put so far, and counts those that stand. Each is there whole or not at all.
look() {
    local last=$1 i got
    "$program" check store >out 2>err || fail "check after a kill: $(cat out err)"
    standing=0
    for ((i = 1; i <= last; i++)); do
        "$program" get store "$(printf '%02x' "$i")" >out 2>err || fail "get after a kill: $(cat err)"
        got=$(cat out)
        case $got in
        "value ${value[i]}")
            standing=$((standing + 1))
            if [ "${stands[i]}" = no ]; then
                unanswered=$((unanswered + 1))
                stands[i]=yes
            fi
            ;;
        absent)
            [ "${stands[i]}" = no ] || fail "put $i was acknowledged or found, and is lost"
            ;;
        *)
            fail "put $i gave ${value[i]}, and get prints '$got'"
            ;;
        esac
    done
}

"$program" format fresh 8192 128 >out 2>err || fail "format: $(cat err)"
unanswered=0 files=0 puts=0
while [ "$killed" -lt "$kills" ]; do
    [ "$puts" -lt $((20 * kills)) ] || fail "only $killed processes were killed at $puts puts"
    files=$((files + 1)) standing=0
    cp fresh store
    for ((put = 1; put <= 9; put++)); do
        before=$standing
        value[put]=$(printf '%04x%04x' "$RANDOM" "$RANDOM")
        stands[put]=no
        run_and_kill put store "$(printf '%02x' "$put")" "${value[put]}"
        puts=$((puts + 1))
        case $status in
        0)
            [ "$(cat out)" = "batch $((before + 1))" ] || fail "put $put after $before batches: $(cat out)"
            stands[put]=yes
            ;;
        137)
            # The answer may have been printed before the kill came.
            if [ -s out ]; then stands[put]=yes; fi
            ;;
        *)
            fail "put $put: $(cat err)"
            ;;
        esac
        # An opening may be killed as well: it leaves what stood.
        run_and_kill get store 01
        look "$put"
    done
done

echo "killed.sh: $killed processes killed at $puts puts on $files files; $unanswered unanswered puts stood; none was lost"
