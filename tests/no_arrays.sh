#!/usr/bin/env bash
# Shows by the compiler's own listing that writing a packet makes no array: neither the C call nor what it calls has a local that holds one.
# The listing is the file toolchain/mir.json that the compiler writes of each library that it builds: the code that the proofs are about,
# and from which programs and archives are compiled. The archive's crate is built as such a library once more, for its listing. Then each
# edit of tests/listing/edits is applied to a copy of its crate, which is still proved, and whose listing must be refused with the line that
# the edit expects. Exits with 1 where packet writing is refused or an edit is not.
# Usage: tests/no_arrays.sh    (after `make built`, so that the libraries stand built in crates/*/out)
set -euo pipefail
cd "$(dirname "$0")/.."
. tests/kit.sh
# Outside the checkout, in which rt wants no files of Rattle but those of the crates.
room=$(mktemp -d)
trap 'rm -rf "$room"' EXIT
export CARGO_TARGET_DIR=$PWD/target/cargo
writer=cinder::write_call::cinder_packet_encode

# library CRATE FOLDER OUT: builds the crate whose files stand in FOLDER as a library, over what was checked of it in target/kept before.
library() {
    compile "$1" "$2" "$3" --incremental "$PWD/target/kept/$1" >"$room/log" 2>&1 || { grep -m 5 '^error' "$room/log" || tail -n 5 "$room/log"; return 1; }
}

# judge ROOT CRATE LIBRARY: prints the functions that ROOT reaches, then the faults; fails where there is one. CRATE's listing is that of
# LIBRARY, of each other crate that of the library as it stands.
judge() {
    local other files=("$3/toolchain/mir.json")
    for other in "$room/cinder.rlib" crates/*/out/rlib/*.rlib; do
        [[ $(basename "$other" .rlib) == "$2" ]] || files+=("$other/toolchain/mir.json")
    done
    "$CARGO_TARGET_DIR/release/listing" "$1" "${files[@]}"
}

# replace FILE OLD NEW: fails unless OLD stands in FILE exactly once.
replace() {
    local text rest
    text=$(cat "$1" && echo .) || return
    text=${text%.}
    rest=${text#*"$2"}
    [[ -n $2 && $text == *"$2"* && $rest != *"$2"* ]] || return
    printf '%s' "${text%%"$2"*}$3$rest" >"$1"
}

# apply EDIT FOLDER: makes the replacements of EDIT in the crate of FOLDER; a `file:` line holds for the `old:` and `new:` lines behind it.
apply() {
    local line file='' old=''
    while IFS= read -r line; do
        case $line in
        'file: '*)
            file=${line#file: }
            [[ -f $2/$file && $file == src/* && $file != *..* ]] || { echo "no file of the crate's src: $file" && return 1; }
            ;;
        'old: '*) old=${line#old: } ;;
        'new: '*) replace "$2/$file" "$old" "${line#new: }" || { echo "not exactly once in $file: $old" && return 1; } ;;
        esac
    done <"$1"
}

# field NAME EDIT: the rest of the line that begins with NAME.
field() {
    sed -n "s/^$1: //p" "$2"
}

# try_edit NAME: prints the expected line, or fails and prints why. In `expect:`, * stands for any text.
try_edit() {
    local edit=tests/listing/edits/$1.edit copy=$room/$1 whole crate root expect line lines
    crate=$(field crate "$edit") root=$(field root "$edit") expect=$(field expect "$edit")
    [[ $crate && $root && $expect ]] || { echo 'it lacks a line crate:, root: or expect:' && return 1; }
    whole=$room/$crate.rlib
    [[ -d $whole ]] || whole=crates/$crate/out/rlib/$crate.rlib
    lines=$(judge "$root" "$crate" "$whole") || { echo "refused without the edit: $lines" && return 1; }
    mkdir "$copy" && cp -R "crates/$crate"/{src,specs,proofs} "$copy" && apply "$edit" "$copy" || return
    lines=$(library "$crate" "$copy" "$copy.rlib") || { echo "not proved with the edit: $lines" && return 1; }
    if lines=$(judge "$root" "$crate" "$copy.rlib"); then
        echo 'NOT REFUSED'
        return 1
    fi
    while IFS= read -r line; do
        # shellcheck disable=SC2053
        if [[ $line == $expect ]]; then
            echo "refused, $line"
            return
        fi
    done <<<"$lines"
    printf 'refused, but not with the line "%s":\n%s\n' "$expect" "$lines"
    return 1
}

cargo build --release --offline --quiet --manifest-path tests/Cargo.toml --package listing
library cinder crates/cinder "$room/cinder.rlib"

failed=0
refused=0
judge "$writer" cinder "$room/cinder.rlib" | tee "$room/reached" || failed=1
# The C call itself writes nothing: what does must be among the functions.
grep -q '^packet_encode::encode: .* locals$' "$room/reached" || { echo 'packet_encode::encode is not reached' && failed=1; }
for edit in tests/listing/edits/*.edit; do
    name=$(basename "$edit" .edit)
    if why=$(try_edit "$name"); then
        refused=$((refused + 1))
    else
        failed=1
    fi
    echo "edit $name: $why"
done
echo "packet writing: $(grep -c ' locals$' "$room/reached") functions reached, $(grep -vc ' locals$' "$room/reached") faults; $refused edits refused"
exit $failed
