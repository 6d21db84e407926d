#!/bin/sh
# Runs replay (target/bin/replay, or what the first argument names) on each capture of examples/ and compares its output; then on a line
# that brings as many 00 as an input has room for, each of which but the first is a finding.
root=$(cd "$(dirname "$0")/.." && pwd)
replay=${1:-$root/target/bin/replay}
failed=0
for capture in "$root"/examples/*.capture; do
    name=$(basename "$capture" .capture)
    if "$replay" < "$capture" | cmp -s - "$root/examples/$name.expected"; then
        echo "replay $name: as expected"
    else
        echo "replay $name: differs from examples/$name.expected"
        failed=1
    fi
done

# A catalogue of no bytes, and one record.
most() {
    printf '\000\000\007\000\372\377'
    head -c 65530 /dev/zero
}
if most | "$replay" | awk '$0 != "line refused 3" { other = 1 } END { exit other || NR != 65529 }'; then
    echo "replay 65,529 findings: a line for each"
else
    echo "replay 65,529 findings: not a line for each"
    failed=1
fi
exit $failed
