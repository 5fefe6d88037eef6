#!/usr/bin/env bash
# Looks that the examples in documents and in comments are lines of crates, so that the gate proves them: those of README.md and docs/api.md,
# and each block of code in the text with which a file of a crate begins, which is to stand in a function of crates/example_documents.
source "$(dirname "$(realpath "$0")")/common.sh"
cd "$tests/.."

# The lines from one to another of the example in a file.
example() {
    sed -n "/^    $2/,/^    $3/p" "$1"
}

# A page shows the lines that a crate has.
shows() {
    local page=$1 crate=$2
    [ "$(example "$page" "$3" "$4" | wc -l)" -gt 10 ] || fail "$page has no example"
    diff <(example "$page" "$3" "$4") <(example "$crate" "$3" "$4") || fail "the example of $page is another one than that of $crate"
}

shows README.md crates/example_db/src/main.rt 'let mut db = Db::open_or_create' 'db\.release'
shows docs/api.md crates/example_store/src/first_use.rt 'let device = FileDevice::open' 'store\.release'

# Code without what a formatter may change: spaces, ends of lines, and the comma after the last of several.
plain() {
    tr -d '[:space:]' | sed 's/,\([])}]\)/\1/g'
}

proved=$(cat crates/example_documents/src/*.rt | plain)
found=0
missing=()

# look_for FILE BLOCK: a block that stands in a file.
look_for() {
    local crate=${1#crates/}
    crate=${crate%%/*}
    if [[ $proved == *"$(plain <<<"$2")"* ]]; then
        found=$((found + 1))
        return
    fi
    printf 'examples.sh: %s\n%s' "no function of crates/example_documents has this code of $1:" "$2" >&2
    missing+=("$crate")
}

# Looks for each block of code in the text with which a file begins. A block that is marked, as text, is none.
look_into() {
    local line block='' fence=
    while IFS= read -r line; do
        if [[ $line != '```'* ]]; then
            block+=${line:+    $line}$'\n'
        elif [ -z "$fence" ]; then
            fence=$line block=''
        else
            [ "$fence" != '```' ] || look_for "$1" "$block"
            fence=
        fi
    done < <(sed -n 's/^\/\/! \{0,1\}//p' "$1")
    [ -z "$fence" ] || fail "a block of $1 has no end"
}

shopt -s globstar
for file in crates/*/src/**/*.rt; do
    [[ $(<"$file") != *'//! ```'* ]] || look_into "$file"
done
[ ${#missing[@]} = 0 ] || fail "crates/example_documents lacks an example of: ${missing[*]}"
[ "$found" -gt 10 ] || fail "only $found examples were found in crates"
echo "examples.sh: the examples of README.md, docs/api.md and $found in crates are proved"
