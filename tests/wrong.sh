#!/usr/bin/env bash
# Shows that an exploration looks at what it explores: with a wrong body in a layer below it has to tell `wrong` above 0.
#
#     tests/wrong.sh [PROGRAM [GROUP..]]
#
# PROGRAM, which the gate gives to each script, isn't run: the wrong bodies are built anew.
# The wrong bodies stand in two groups, `crashes` and `roots`. Those of a group are made together in one copy of the repository, where
# the program runs unproved (`rt try`), on a script for each of them. No other body of its group shows on a script: LEFT_OUT=NAME
# in the environment leaves out that one, which then has to be told as not found. Some are edits that the prover refuses, from a
# folder must-fail/; the others stand here. In the first group each crash is opened once, without the crashes of the opening behind it, and in
# the second one with them. One wrong body shows at a third crash alone: with it a run of lives gives another answer.
source "$(dirname "$(realpath "$0")")/common.sh"
cd "$tests/.."
copy=$room/copy cases=$room/cases # Without a space, for what builds there.
code=0

# Makes a wrong body in the copy, as it is read: each pair of texts, old and new, in its file.
edit() {
    local line target='' old='' text
    while IFS= read -r line; do
        case $line in
        file:*) target=$copy/crates/${line#file: } ;;
        old:*) old=${line#old: } ;;
        new:*)
            text=$(cat "$target" && echo .)
            case $text in
            *"$old"*) ;;
            *) fail "this is not in $target: $old" ;;
            esac
            printf '%s' "${text/"$old"/"${line#new: }"}" >"$target"
            truncate -s -1 "$target" # The dot.
            ;;
        esac
    done
}

# A group begins: a copy.
begin() {
    rm -rf "$copy" "$cases"
    mkdir "$copy" "$cases"
    git ls-files -z crates crates.txt HANDLES | xargs -0 cp --parents -t "$copy"
}

# body NAME: makes the wrong body that is read. refused CRATE NAME: makes one of a crate that the prover refuses.
body() {
    if [ "${LEFT_OUT:-}" = "$1" ]; then cat >/dev/null; else edit; fi
}
refused() {
    sed "s|^file: |file: $1/|" "crates/$1/edits/gate/$2.edit" | body "$2"
}

# shows NAME WORDS: the script that is read shows a wrong body of the group.
shows() {
    cat >"$cases/$1"
    tr ' ' '\n' <<<"$2" >"$cases/$1.args"
}

# Runs the scripts of the group, and leaves in `explored` the line that each exploration prints, by the name of the wrong body.
declare -A explored
run() {
    local name place=0 lines
    (cd "$copy/crates/lsmctl" && rt try --seconds 600 --cases "$cases") >"$room/answers" 2>"$room/errors" || true
    mapfile -t lines < <(grep '^first ' "$room/answers")
    explored=()
    while read -r name; do
        grep -q explore "$cases/$name.args" || continue
        explored[$name]=${lines[place]:-}
        place=$((place + 1))
    done < <(sed -n 's/^case=\([a-z_]*\) run=ended.*/\1/p' "$room/errors")
}

# told NAME MATCHES PATTERN LINE: what was printed for the script of a wrong body must match, or must not.
told() {
    local name=$1 matches=$2 pattern=$3 line=$4 found=yes
    [ -n "$line" ] || fail "$name: it has not run: $(tail -n 20 "$room/answers" "$room/errors")"
    grep -Eq "$pattern" <<<"$line" || found=no
    if [ "$found" = "$matches" ]; then
        echo "$name is found: ${line:0:200}"
    else
        echo "wrong.sh: $name is not found: $line" >&2
        code=1
    fi
}

wrong_once='^first [0-9]+ second 0 skipped [0-9]+ wrong [1-9]'
wrong_twice='^first [0-9]+ second [1-9][0-9]* skipped [0-9]+ wrong [1-9]'
long=$(printf '32%.0s' {1..600})

# ---- what crashes leave of batches and of tables

crashes() {
    local name
    begin
    # Each crash is opened once.
    edit <<'EDIT'
file: lsmctl/src/exploring.rt
old:         true,
new:         false,
EDIT
    # Operations that stand of a batch are applied though its last part is missing.
    body take_ends_a_batch_without_its_last_part <<'EDIT'
file: lsm_codec/src/batch_text.rt
old: None => return false,
new: None => return true,
old: rest.is_empty()
new: true
file: lsm_log/src/reading.rt
old: let Some(sector) = LogSector::decode(bytes) else {
new: let Some(sector) = LogSector::decode(bytes) else { if self.part > 0 { self.end_batch(alloc)?; }
EDIT
    shows take_ends_a_batch_without_its_last_part 'explore 8192 128' <<SCRIPT
commit +61=31 +62=$long
SCRIPT
    # A batch that is missing is passed over, and the next one taken.
    body take_passes_over_a_missing_batch <<'EDIT'
file: lsm_log/src/reading.rt
old: && (sector.batch == self.number
new: && (sector.batch >= self.number
old: if !self.is_awaited(&sector) {
new: if !self.is_awaited(&sector) { if self.part == 0 { return Ok(true); }
old: let Some(sector) = LogSector::decode(bytes) else {
new: let Some(sector) = LogSector::decode(bytes) else { if self.part == 0 { return Ok(true); }
EDIT
    shows take_passes_over_a_missing_batch 'explore 8192 128' <<SCRIPT
commit +62=32
commit +61=31
SCRIPT
    # A sync up to a batch is answered without one.
    refused lsm_store sync_to_answers_from_the_batch_count
    shows sync_to_answers_from_the_batch_count 'explore 8192 128' <<SCRIPT
commit +61=31
syncto 1
SCRIPT
    # A merge's input blocks are given back as its result is accepted: the next flush writes over them before the merge is installed. Of
    # more than 4 writes not each subset is tried, so that it takes no minutes.
    refused lsm_jobs accept_own_gives_inputs_back
    edit <<'EDIT'
file: lsm_explore/src/masks.rt
old: const MOST_WRITES: usize = 12;
new: const MOST_WRITES: usize = 4;
EDIT
    shows accept_own_gives_inputs_back 'explore 8192 128' < <(merges)
    run
    for name in take_ends_a_batch_without_its_last_part take_passes_over_a_missing_batch sync_to_answers_from_the_batch_count \
        accept_own_gives_inputs_back; do
        told "$name" yes "$wrong_once" "${explored[$name]:-}"
    done
}

flush() {
    local job=$1
    printf 'commit +6%s=31\nrotate\ntake\nread %s\nbuild %s 1\naccept %s %s\nwrite %s\n' "$job" "$job" "$job" "$job" "$job" "$job"
}
merges() {
    local job
    for job in 1 2 3 4; do
        flush "$job" && printf 'install %s\n' "$job"
    done
    printf 'take\nread 5\nbuild 5 1\naccept 5 5\n'
    flush 6
}

# ---- what they leave of roots and of regions

roots() {
    local name
    begin
    # The superblock is written before the manifest is synced.
    refused lsm_root install_writes_the_superblock_before_the_manifest_stands
    shows install_writes_the_superblock_before_the_manifest_stands 'explore 8192 128' <<SCRIPT
commit +61=31
sync
SCRIPT
    # Each region is opened under the same epoch: what a first crash left behind a batch that it dropped is there again, once the region
    # is used anew.
    body next_regions_keep_the_epoch <<'EDIT'
file: lsm_open/src/reopened.rt
old: &closed, generation, count);
new: &closed, 1, count);
EDIT
    shows next_regions_keep_the_epoch 'lives 8192 128' <<SCRIPT
commit +61=31
commit +62=41
commit +63=33
crash 101
take
build 1 1
accept 1 1
write 1
install 1
crash none
commit +62=$long
sync
crash none
scan empty end 64
SCRIPT
    run
    name=install_writes_the_superblock_before_the_manifest_stands
    told "$name" yes "$wrong_twice" "${explored[$name]:-}"
    told next_regions_keep_the_epoch no "^rows 61=31 62=$long end" "$(grep '^rows ' "$room/answers" || true)"
}

[ $# -eq 0 ] || shift
[ $# -gt 0 ] || set -- crashes roots
for group; do
    case $group in
    crashes) crashes ;;
    roots) roots ;;
    *) fail "there is no group $group" ;;
    esac
done
exit $code
