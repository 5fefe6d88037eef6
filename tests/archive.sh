#!/usr/bin/env bash
# Makes crates/corwaphi_c/out/libcorwaphi_c.a of the libraries that `rt ci` has proved and built, which `rt lib` would prove once more. That
# library itself is proved again, since only what is proved is built. With a TARGET, as aarch64-unknown-linux-gnu, it is that of another
# machine, out/libcorwaphi_c.TARGET.a.
#
#     tests/archive.sh [JOBS [TARGET]]
source "$(dirname "$(realpath "$0")")/common.sh"
jobs=${1:-2}
target=${2:-}
archive=libcorwaphi_c${target:+.$target}.a
kit=$(dirname "$(rt doc | head -n 1)")
cd "$tests/../crates"

read -r -a libraries < <(sed -n 's/^corwaphi_c staticlib: //p' ../crates.txt)
words=()
for name in "${libraries[@]}"; do
    if [ -d "$name" ]; then
        words+=(--extern "$name=$PWD/$name/out/rlib/$name.rlib")
    else
        words+=(--extern "$name=$kit/rlibs/$name.rlib")
    fi
done
for folder in */out/rlib; do words+=(-L "dependency=$PWD/$folder"); done

what='the static library'
cd corwaphi_c
mkdir -p out
build() {
    timeout 1800 "$kit/bin/rattle" build --crate-name corwaphi_c src/lib.rt --crate-type staticlib --extern "std=$kit/rlibs/std.rlib" \
        -L "dependency=$kit/rlibs" "${words[@]}" --antt-project "$kit/rattle/logic/antt-project.json" --logic-built "$kit/logic_built" \
        --links corwaphi_c= --toolchain "$kit/toolchain" --jobs "$jobs" ${target:+--target "$target"} -o "out/$archive"
}
build >"$room/said" 2>&1 || { tail -n 20 "$room/said" >&2 && fail 'it was not built'; }
what=
echo "archive.sh: $archive, $(stat -c %s "out/$archive") bytes"
