#!/usr/bin/env bash
# Tests the store in the process of programs in C, Rust and Python: builds the libraries of clients/c, and runs their tests, those of
# clients/rust, and those of the Python engine over them; exchanges files with `lsmctl`; and runs the lines of README.md for C and Rust.
#
#     tests/native.sh PROGRAM [PART]
#
# PROGRAM is a built `lsmctl`. PART is the part of the long loops that is done, 1 by default. The library of the store is built if it isn't
# there, by tests/archive.sh of what `rt ci` left; ARCHIVE names another one.
program=$(realpath "${1:?the path of a built lsmctl}")
part=${2:-1}
# shellcheck source=tests/common.sh
source "$(dirname "$(realpath "$0")")/common.sh"
has cc 'the libraries for C' || exit 0
has make 'the libraries for C' || exit 0
has python3 'the libraries for C' || exit 0

some() { python3 -c 'import sys; print(max(1, int(int(sys.argv[1]) * float(sys.argv[2]))))' "$1" "$part"; }
# The words that a command prints last.
last() { tail -n 1 "$room/said" | sed 's/^/native.sh: /'; }
runs() {
    what=$*
    timeout -k 10 600 "$@" >"$room/said" 2>&1 || { cat "$room/said" >&2 && fail "it ended with $?"; }
    what=
}

# ---- the libraries, without a warning

crate=$tests/../crates/corwaphi_c
archive=${ARCHIVE:-$crate/out/libcorwaphi_c.a}
[ -f "$archive" ] || runs "$tests/archive.sh"
source=$room/c build=$room/build
cp -r "$tests/../clients/c" "$source"
cp "$tests/../VERSION" "$room/VERSION"
makes() { runs make -s -C "$source" ARCHIVE="$archive" BUILD="$build" "$@"; }
sed -i 's|\.\./\.\./VERSION|../VERSION|' "$source/Makefile"
makes CFLAGS='-O2 -g -Werror' all "$build/example" "$build"/{calls,random,fill,killed,journal,crash,faults}
lines=$(cat "$source/corwaphi.c" "$source/files.c" | wc -l)
for compiler in clang c++; do
    command -v $compiler >/dev/null || continue
    language=$([ $compiler = c++ ] && echo c++ || echo c)
    for file in $([ $compiler = c++ ] && echo "$source/corwaphi.h" || echo "$source"/*.c); do
        runs $compiler -x "$language" -I"$source" -Wall -Wextra -Wconversion -Wshadow -Werror -fsyntax-only "$file"
    done
done

# Nothing but what the header declares is told to programs.
nm -D --defined-only "$build/libcorwaphi.so" | awk '{print $3}' | sort >"$room/told"
grep -o 'corwaphi_[a-z_]*(' "$source/corwaphi.h" | tr -d '(' | sort -u >"$room/declared"
diff "$room/declared" "$room/told" >&2 || fail 'libcorwaphi.so has other names than corwaphi.h'

# The names of codes are those of docs/api.md.
cat >"$room/names.c" <<'END'
#include <corwaphi.h>
#include <stdio.h>
int main(void)
{
    for (unsigned code = 1; code <= 31; code++)
        printf("%u %s\n", code, corwaphi_name(code));
    return 0;
}
END
cc -I"$source" "$room/names.c" "$build/libcorwaphi.a" -lpthread -o "$room/names"
"$room/names" | diff <(awk -F '|' '/^\| [0-9]+ \| [A-Za-z]+ \|/ {gsub(/ /, ""); print $2, $3}' "$tests/../docs/api.md") - >&2 ||
    fail 'the names of codes are not those of docs/api.md'

# ---- what they do

image=$folder/store.img
runs "$build/example" "$image"
grep -qx 'the pear is ripe' "$room/said" || fail 'the example prints something else'
runs "$build/calls" "$folder/calls.img" && last
runs "$build/random" "$folder/random.img" "$(some 20000)" 1 && last
runs "$build/fill" "$folder/fill.img" 1 && last
runs "$build/killed" "$folder/killed.img" "$(some 100)" 1 && last
runs "$build/journal" && last
runs "$build/crash" "$(some 3000)" 1 && last
runs "$build/faults" "$folder/faults.img" && last

# Hosts that are wrong are found out: `found TEST WHAT SED` tries one by a test.
wrapped=(-std=c11 -D_DEFAULT_SOURCE -O1 -I"$source" '-Wl,--wrap=pwrite,--wrap=fdatasync')
found() {
    sed "$3" "$source/files.c" >"$room/wrong.c"
    if cmp -s "$source/files.c" "$room/wrong.c"; then fail "$2: nothing was changed"; fi
    cc "${wrapped[@]}" "$source/tests/$1.c" "$room/wrong.c" "$build/libcorwaphi.a" -lpthread -o "$build/wrong"
    if "$build/wrong" 3000 1 >"$room/said" 2>&1; then fail "a host passes $1 that $2"; fi
}
for it in journal crash; do
    found "$it" 'leaves syncs out' 's/if (!count && !synced(file->descriptor))/if (false)/'
    found "$it" 'passes over a sync that failed' 's/if (!count && !synced(file->descriptor))/if (!count \&\& !synced(file->descriptor) \&\& false)/'
    found "$it" 'writes behind a sync what stands in front of it' '
        s/^    for (size_t at = 0; at < used;) {/    bool is_early = false;\n&/
        s/if (!count && !synced/if (!count \&\& !is_early \&\& !synced/
        s/^        if (count && !written(/        if (count)\n            is_early = at + SECTOR * count < used \&\& !little(journal + at + SECTOR * count + 4) \&\& synced(file->descriptor);\n&/'
done
found journal 'trusts the lengths of a journal' 's/if (!is_journal(file, journal, used))/if (false)/'
found journal 'writes behind the end of the file' 's/ || (count && sector + count > file->length \/ SECTOR)//'

# The benchmark beside other engines does all of its rows over the library, and finds each key and row.
if has c++ 'the benchmark beside other engines'; then
    compared=$room/compared
    mkdir "$folder/compared"
    runs c++ -std=c++17 -O2 -Wall -Wextra -Werror -I"$source" -DCORWAPHI_VERSION="\"$(<"$tests/../VERSION")\"" -o "$compared" \
        "$tests/../bench/peers/corwaphi.cpp" "$build/libcorwaphi.a" -pthread
    rows=(fill overwrite 'batches of 100' load 'keys in order' 'synced puts' 'get hit' 'get miss' 'pages of 64' 'whole scan')
    printf '%s\n' "${rows[@]}" | runs "$compared" "$folder/compared" 2000
    [ "$(grep -cP '^\d+\t\d+\t' "$room/said")" -eq ${#rows[@]} ] || fail 'the benchmark beside other engines left out a row'
fi

# The sanitizers find nothing in the host.
if cc -fsanitize=address,undefined -x c -o "$room/sane" - <<<'int main(void) { return 0; }' 2>/dev/null; then
    build=$room/sane.build
    makes CFLAGS='-O1 -g -fsanitize=address,undefined -fno-sanitize-recover=all' "$build"/{calls,random,journal}
    runs "$build/calls" "$folder/calls.img"
    runs "$build/journal"
    runs "$build/random" "$folder/random.img" "$(some 4000)" 2 && last
    build=$room/build
fi

# ---- files of the program

what='files that go from one to the other'
[[ "$("$program" check "$image")" = "ok "* ]] || fail 'lsmctl finds something wrong'
[ "$("$program" get "$image" 70656172)" = 'value 72697065' ] || fail 'lsmctl reads something else'
"$program" format "$folder/other.img" 8192 128 >"$room/said"
"$program" put "$folder/other.img" 70656172 677265656e >"$room/said"
runs "$build/example" "$folder/other.img"
[ "$("$program" get "$folder/other.img" 6170706c65)" = 'value 726564' ] || fail 'lsmctl reads something else'
what=

# ---- as it is installed

makes PREFIX="$room/usr" install
cc -I"$room/usr/include" "$source/example.c" -L"$room/usr/lib" -lcorwaphi -o "$room/example"
LD_LIBRARY_PATH=$room/usr/lib runs "$room/example" "$image"
if command -v pkg-config >/dev/null; then
    flags=$(PKG_CONFIG_PATH=$room/usr/lib/pkgconfig pkg-config --static --cflags --libs corwaphi)
    # shellcheck disable=SC2086 # They are words.
    cc "$source/example.c" $flags -o "$room/example"
fi
echo "native.sh: libcorwaphi.a and .so: a host of $lines lines, without a warning, as it should be"

# ---- as README.md says it

# Its lines for a language run as they stand there, in a copy of what they name. Only `rt lib` is another one: it takes the archive from above.
reader=$room/reader
mkdir -p "$reader"/{clients,crates/corwaphi_c,bin}
cp -r "$tests/../clients/c" "$tests/../clients/rust" "$reader/clients"
cp "$tests/../VERSION" "$reader"
rm -rf "$reader"/clients/{c/build,rust/target}
cat >"$reader/bin/rt" <<END
#!/bin/sh
if [ "\$1" != lib ]; then exec "$(command -v rt)" "\$@"; fi
mkdir -p out && cp "$(realpath "$archive")" out/libcorwaphi_c.a
END
chmod +x "$reader/bin/rt"
as_told() {
    what="the lines of README.md for $1"
    awk -v head="In $1:" '$0 == head {begun = 1; next} begun && /^    / {print substr($0, 5); some = 1; next} some {exit}' "$tests/../README.md" >"$room/lines"
    [ "$(wc -l <"$room/lines")" = 3 ] || fail 'they are not three'
    (cd "$reader" && PATH=$reader/bin:$PATH CARGO_TARGET_DIR=$room/target runs bash -e "$room/lines")
    grep -qx 'pear = ripe' "$room/said" || { cat "$room/said" >&2 && fail 'they print something else'; }
    what=
}
as_told C

# ---- other languages

if has cargo 'the Rust crate'; then
    cp -r "$tests/../clients/rust" "$room/rust"
    cargo_runs() { (cd "$room/rust" && CARGO_TARGET_DIR=$room/target CORWAPHI_LIB_DIR=$build TMPDIR=$folder runs cargo "$@"); }
    cargo_runs test --offline
    cargo_runs run --offline --example first -- "$image"
    RUSTDOCFLAGS='-D warnings' cargo_runs doc --offline --no-deps
    as_told Rust
    echo 'native.sh: the Rust crate: its tests, its page, its example and the lines of README.md, as it should be'
fi
(
    cd "$tests/../clients/python/tests"
    CORWAPHI_LIBRARY=$build/libcorwaphi.so TMPDIR=$folder CORWAPHI_TEST_PART=$part PYTHONDONTWRITEBYTECODE=1 \
        runs python3 -X dev -m unittest test_native.Native
)
echo 'native.sh: the Python engine, as it should be'
