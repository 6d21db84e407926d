# What build.sh and no_arrays.sh share; they source this file at the top of the repository.
kit=$(dirname "$(rt doc)")

# uses CRATE: the libraries that crates.txt lists for it.
uses() {
    sed -n "s/^$1\( staticlib\)\{0,1\}: *//p" crates.txt
}

# compile CRATE FOLDER OUT FLAGS..: proves the crate whose files stand in FOLDER, over the repository's libraries as they stand built in
# crates/*/out, and compiles it into OUT. It is the command that `rt lib` runs (`rattle build --help`), for an OUT of our own.
compile() {
    local crate=$1 folder=$2 out=$3 used words=() root=$PWD
    shift 3
    for used in std $(uses "$crate"); do
        if [[ -d crates/$used ]]; then
            words+=(--extern "$used=$root/crates/$used/out/rlib/$used.rlib")
        else
            words+=(--extern "$used=$kit/rlibs/$used.rlib")
        fi
    done
    for used in crates/*/out/rlib; do
        words+=(-L "dependency=$root/$used")
    done
    (cd "$folder" && "$kit/bin/rattle" build --crate-name "$crate" src/lib.rt "${words[@]}" -L "dependency=$kit/rlibs" \
        --antt-project "$kit/rattle/logic/antt-project.json" --logic-built "$kit/logic_built" --toolchain "$kit/toolchain" \
        --jobs 2 "$@" -o "$out")
}
