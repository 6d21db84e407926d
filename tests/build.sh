#!/usr/bin/env bash
# Puts what the tests from outside need of the product into target/, as copies: the programs run, replay, show and line into target/bin,
# the archive into target/staticlib. Nothing is built that is not proved.
# Each is built by rt in its crate's folder, over what earlier checks kept there: `rt run`, which then runs the program, here on no input,
# and `rt lib`. Where those kept nothing, as in a clean clone, that proves every crate below again. After `rt ci` less is needed: it leaves
# the programs that it proved and compiled, and the libraries below the archive, so the archive's own crate alone is proved once more.
# usage: tests/build.sh [BEGAN]    BEGAN is a file that was written when `rt ci` began in this checkout, and has ended well. What is newer
#                                  than it was made of the files as they now are; rt puts back what older commands left.
set -euo pipefail
cd "$(dirname "$0")/.."
. tests/kit.sh
began=${1-}
mkdir -p target/bin target/staticlib

# is_new PATH: whether `rt ci` has just made it.
is_new() {
    [[ $began && -e $1 && $1 -nt $began ]]
}

# are_libraries_new: whether `rt ci` has just built each library of the repository.
are_libraries_new() {
    local library
    for library in $(sed -n 's/^\([a-z0-9_]*\):.*/\1/p' crates.txt); do
        [[ ! -e crates/$library/src/lib.rt ]] || is_new "crates/$library/out/rlib/$library.rlib" || return
    done
}

for program in run replay show line; do
    if ! is_new "crates/$program/out/$program"; then
        echo "building $program"
        (cd "crates/$program" && rt run </dev/null) >target/build.log 2>&1 || { tail -n 20 target/build.log; exit 1; }
    fi
    cp "crates/$program/out/$program" target/bin
done

echo 'building the archive'
if are_libraries_new; then
    compile cinder crates/cinder "$PWD/target/staticlib/libcinder.a" --crate-type staticlib --incremental "$PWD/target/kept/cinder"
else
    (cd crates/cinder && rt lib) && cp crates/cinder/out/libcinder.a target/staticlib
fi >target/build.log 2>&1 || { tail -n 20 target/build.log; exit 1; }
