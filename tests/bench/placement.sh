#!/usr/bin/env bash
# Times packet writing and list reading against C in eight programs that differ only in where the linker puts the code: before the C
# calls and before the archive's stands a piece of another size in each. Prints for each case the range over the programs.
# usage: placement.sh ARCHIVE FOLDER FLAGS..    (FOLDER takes what is built; FLAGS are gcc's)
set -euo pipefail
here=$(cd "$(dirname "$0")" && pwd)
archive=$1 folder=$2
shift 2
mkdir -p "$folder"

# piece NAME SIZE: an object of so many bytes.
piece() {
    printf '.text\n.space %d\n.section .note.GNU-stack\n' "$2" >"$folder/$1.s"
    gcc -c "$folder/$1.s" -o "$folder/$1.o"
}

for name in placement plain/packet_writer plain/tuned_list_reader; do
    gcc -O2 "$@" -c "$here/$name.c" -o "$folder/$(basename "$name").o"
done
for shift_by in 0 16 32 48 64 80 96 112; do
    # The linker rounds a piece up to 16 bytes: the C calls move by 3, the archive's by 5 of these, so that each side takes all places.
    piece first $((3 * shift_by + 1))
    piece second $((2 * shift_by + 1))
    (cd "$folder" && gcc placement.o first.o packet_writer.o tuned_list_reader.o second.o "$archive" -o placement)
    "$folder/placement"
done | awk '
function keep(name, from, to, value) {
    if (!(name in from) || value < from[name]) from[name] = value
    if (value > to[name]) to[name] = value
}
!($1 in seen) { seen[$1] = 1; order[++cases] = $1 }
{ keep($1, c_from, c_to, $2); keep($1, own_from, own_to, $3); keep($1, from, to, $3 / $2) }
END {
    printf "%-24s %18s %18s %14s\n", "case", "C ns", "archive ns", "archive/C"
    for (at = 1; at <= cases; at++) {
        name = order[at]
        printf "%-24s %8.1f to %6.1f %8.1f to %6.1f %5.2f to %4.2f\n", name,
            c_from[name], c_to[name], own_from[name], own_to[name], from[name], to[name]
    }
}'
