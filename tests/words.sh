#!/usr/bin/env bash
# words.sh PROGRAM: a word that is no UTF-8, a file that can't be opened, an answer or a fault that can't be written, and an input
# that can't be read to its end. What can be told is told on standard error. A writer that takes four bytes is a limit of the file size, which
# `prlimit` sets.
source "$(dirname "$(realpath "$0")")/common.sh"
program=$(realpath "${1:?the path of a built lsmctl}")

# expect STATUS TEXT WORD..: so the program ends on these words, and so its text on standard error begins.
expect() {
    local wanted=$1 text=$2 status=0
    shift 2
    "$program" "$@" <"$input" >"$output" 2>"$errors" || status=$?
    [ "$status" = "$wanted" ] || fail "$* ended with $status"
    [ -n "$text" ] || return 0
    case "$(cat "$errors")" in
    "$text"*) ;;
    *) fail "$* told $(cat "$errors")" ;;
    esac
}

input=/dev/null
output=$folder/output
errors=$folder/errors
expect 2 "error: a word is no UTF-8 text" get "$folder/"$'\xff' 61
[ ! -s "$output" ] || fail "an answer was printed"

# opens_not CAUSE WORDS FILE: so the program refuses a file on words that are parted by spaces, of which FILE stands for the file.
opens_not() {
    local cause=$1 file=$3 status=0 told words
    read -ra words <<<"$2"
    words=("${words[@]/#FILE/"$file"}")
    told=$("$program" "${words[@]}" </dev/null 2>&1) || status=$?
    [ "$status" = 1 ] && [ "$told" = "$(printf 'refused 02 Io\nerror: %s' "$cause")" ] || fail "$2 of $file ended with $status: $told"
}

printf x >"$folder/byte"
for word in 'get FILE 61' 'put FILE 61 31' 'check FILE' 'serve FILE' 'dump FILE'; do
    opens_not "there is no such file" "$word" "$folder/none"
    opens_not "the folder of the file is missing" "$word" "$folder/none/F"
    opens_not "the file is a folder" "$word" "$folder"
    opens_not "the length of the file is not a whole number of sectors" "$word" "$folder/byte"
done
# A sparse file of one sector more than have numbers, where the file system has such.
if truncate -s $((512 << 32)) "$folder/large" 2>"$folder/truncated"; then
    opens_not "the file has more than 4294967295 sectors" 'get FILE 61' "$folder/large"
    rm "$folder/large"
fi
opens_not "the folder of the file is missing" 'format FILE 8192 128' "$folder/none/F"
opens_not "the file is a folder" 'format FILE 8192 128' "$folder"
[ ! -e "$folder/none" ] || fail "a file that is only read was made"
if [ "$(id -u)" != 0 ]; then
    : >"$folder/denied"
    chmod 000 "$folder/denied"
    opens_not "the file may not be read and written" 'get FILE 61' "$folder/denied"
fi

output=/dev/full
expect 1 "error: the answer could not be written: " lives 8192 128
# A fault that can't be written, of the answer, of a refusal and of a mistake.
errors=/dev/full
expect 1 "" lives 8192 128
expect 1 "" lives 8191 128
expect 1 "" lives 8192

if has prlimit 'a write that falls short'; then
    status=0
    told=$(
        trap '' XFSZ
        exec prlimit --core=0 --fsize=4 "$program" lives 8192 128 2>&1 >"$folder/short" </dev/null
    ) || status=$?
    [ "$status" = 1 ] && [ "$(cat "$folder/short")" = open ] || fail "a short write ended with $status: $(cat "$folder/short")"
    case $told in
    "error: the answer could not be written: "*) ;;
    *) fail "a short write told $told" ;;
    esac
fi

# A closed standard stream: a file gets no number of one, so nothing that is printed or read goes to the store.
"$program" format "$folder/F" 8192 128 >"$folder/output"
"$program" put "$folder/F" 61 31 >"$folder/output"
output=$folder/output
errors=$folder/errors
# shellcheck disable=SC2016 # eval expands them.
for word in 'get "$folder/F" 61' 'put "$folder/F" 62 32' 'replay "$folder/F"'; do
    for streams in '<&-' '>&-' '2>&-' '<&- >&- 2>&-'; do
        eval "\"\$program\" $word </dev/null >\"\$output\" 2>\"\$errors\" $streams" || true
        "$program" check "$folder/F" >"$output" 2>&1 || fail "$word with $streams left $(cat "$output")"
    done
done
status=0
"$program" get "$folder/F" 61 >&- 2>"$folder/told" || status=$?
[ "$status" = 1 ] || fail "a closed standard output ended with $status"

# ---- lines that are too long

# A line of which there is more than can be right is a mistake at once, though it never ends: little of it is kept, and 80 bytes are told.
# `first` comes before it.
endless() {
    local call=$1 first=$2 said=$3 answer=$4 status=0 told wanted
    # The words are parted by spaces.
    # shellcheck disable=SC2086
    told=$(timeout 120 prlimit --data=$((100 << 20)) "$program" $call 2>&1 >"$folder/output" < <(echo "$first" && exec tr '\0' 6 </dev/zero)) || status=$?
    wanted=$(printf 'error: line 2 of the %s: "%s"' "$said" "$(printf '%080d' 0 | tr 0 6)")
    [ "$status" = 2 ] && [ "$told" = "$wanted" ] || fail "an endless line of $call ended with $status: $(head -c 300 <<<"$told")"
    [ "$(cat "$folder/output")" = "$answer" ] || fail "an endless line of $call printed $(head -c 300 "$folder/output")"
}
cd "$folder"
if has prlimit 'lines that never end'; then
    endless 'load F' '6101 31' 'input is no row KEY VALUE' 'loaded 1'
    endless 'replay F' 'room' "script can't be read" ''
    endless 'lives 8192 128' 'room' "script can't be read" ''
    endless 'explore 8192 128' 'room' "script can't be read" ''
fi
# The longest row, and the longest line of a script, are read; those with a byte more are not.
{ printf '%0510d %04096d\n' 1 2 && printf '%0512d 32\n' 1; } >"$folder/rows"
status=0
"$program" load F <"$folder/rows" >"$folder/output" 2>"$folder/told" || status=$?
[ "$status" = 2 ] && [ "$(cat "$folder/output")" = 'loaded 1' ] || fail "the longest row ended with $status: $(cat "$folder/output")"
script_of() {
    printf commit && awk 'BEGIN { for (put = 1; put <= 42855; put++) printf " +61=31" }' && printf ' +61=%s\n' "$1"
}
[ "$(script_of 3131 | wc -c)" = 300001 ] || fail "the longest line has $(script_of 3131 | wc -c) bytes"
[ "$(script_of 3131 | "$program" replay F 2>&1)" = 'refused 18 BatchTooBig' ] || fail "the longest line of a script is not read"
status=0
line=$(script_of empty)
told=$("$program" replay F <<<"$line" 2>&1) || status=$?
[ "$status" = 2 ] && [ "$told" = "error: line 1 of the script can't be read: \"${line:0:80}\"" ] || fail "a line of a byte too many ended with $status: $(head -c 300 <<<"$told")"
cd / # Paths are whole again.

# An input that fails at its first read: a folder. One that gives a byte and then fails: a socket whose other end was closed
# before it had read what was sent to it.
input=$folder
output=$folder/output
errors=$folder/errors
expect 1 "" lives 8192 128
[ ! -s "$output" ] || fail "an answer was printed"
cat >"$folder/torn.py" <<'END'
import socket, subprocess, sys
for words, wanted in [("lives 8192 128", 1), ("lives 8191 128", 1), ("lives 8192 x", 2)]:
    ours, theirs = socket.socketpair()
    ours.send(b"s")
    theirs.send(b"unread")
    ours.close()
    ended = subprocess.run([sys.argv[1], *words.split()], stdin=theirs, capture_output=True)
    if ended.returncode != wanted or ended.stdout:
        sys.exit(f"{words} ended with {ended.returncode}: {ended.stdout + ended.stderr}")
    print(words, ended.stderr.decode(), end="")
END
if has python3 'an input that fails behind its first byte'; then
    python3 "$folder/torn.py" "$program" >"$output" || fail "an input that fails"
fi
echo "words.sh: a word that is no UTF-8, and what can't be written or read, is told"
