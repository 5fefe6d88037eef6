# shellcheck shell=bash
# What the scripts of this folder share. Each of them reads it at its beginning:
#
#     source "$(dirname "$(realpath "$0")")/common.sh"
#
# It sets `tests`, the path of this folder, and `folder`, a new one, which is removed at the end. That one has a space in its name, so
# that nothing rests on names without. What stands in `what` is told beside a failure.
set -Eeuo pipefail

# shellcheck disable=SC2034 # For the scripts.
tests=$(dirname "$(realpath "${BASH_SOURCE[0]}")")
room=$(mktemp -d)
folder="$room/a folder"
mkdir "$folder"

# A failure fails the script also where it comes within a pipe or a substitution.
ended() {
    local status=$?
    if [ -e "$room/failed" ]; then status=1; fi
    jobs -p | xargs -r kill 2>/dev/null || true
    rm -rf "$room"
    exit "$status"
}
trap ended EXIT
trap 'echo "${0##*/}: line $LINENO: a command ended with $?" >&2' ERR

what=
fail() {
    echo "${0##*/}: $*${what:+ ($what)}" >&2
    : >"$room/failed"
    trap - ERR
    exit 1
}

# skip PART WHY: a part that can't be looked at fails the script. With CHECK_WITHOUT_TOOLS=1 it is skipped, and a line says so.
skip() {
    [ "${CHECK_WITHOUT_TOOLS:-}" = 1 ] || fail "$2: CHECK_WITHOUT_TOOLS=1 skips $1"
    echo "${0##*/}: skipped: $1: $2"
}

# has TOOL PART: whether a tool is here that a part needs.
has() {
    if command -v "$1" >/dev/null; then return 0; fi
    skip "$2" "$1 is not installed"
    return 1
}

# traces PART: whether strace is here and may trace.
traces() {
    has strace "$1" || return 1
    if strace -qq -o "$room/trace" true 2>"$room/told"; then return 0; fi
    skip "$1" "strace may not trace here"
    return 1
}
