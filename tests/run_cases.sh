#!/bin/sh
# Runs the run program on inputs whose lines 01 gives, and compares what it prints. Exits with 1 where one differs.
# Usage: tests/run_cases.sh [PROGRAM]    (default target/bin/run, which `make built` puts there)
set -eu
name=run
program=${1:-target/bin/run}
. "$(dirname "$0")/program_cases.sh"

: >"$room/in"
expect 'no bytes' <<EOF
end 0
EOF

{ primes; two_lists 000; } >"$room/in"
expect 'two lists' <<EOF
list 1 bytes 40 rows 9
list 2 bytes 72 rows 10
end 112
EOF

{ primes; two_lists 000; printf '\000\000'; } >"$room/in"
expect 'two lists and 00 00' <<EOF
list 1 bytes 40 rows 9
list 2 bytes 72 rows 10
stop 21 at 112 depth 0
EOF

{ primes; two_lists 170; primes; } >"$room/in"
expect 'a string that does not end in zero' <<EOF
list 1 bytes 40 rows 9
stop 25 at 80 depth 2
EOF

{ two_lists 000; words 256 1 1 5; primes; } >"$room/in"
expect 'a list of one kind that is not typed' <<EOF
list 1 bytes 72 rows 10
stop 24 at 72 depth 1
EOF

{ primes; words 256 2 256 2 256 0 256 1 1 5; } >"$room/in"
expect 'a nested list of one kind that is not typed' <<EOF
list 1 bytes 40 rows 9
stop 24 at 64 depth 3
EOF

{ primes; words 256 2 256; } >"$room/in"
expect 'a nested list without its count' <<EOF
list 1 bytes 40 rows 9
stop 21 at 52 depth 2
EOF

{ primes; words 256 2 256 1 256 0 7; } >"$room/in"
expect 'an unknown code behind nested lists' <<EOF
list 1 bytes 40 rows 9
stop 26 at 64 depth 1
EOF

{ primes; words 256 1 256 1 256 1 256 1 256 1 256 1 256 1 256 0; } >"$room/in"
expect 'eight nested lists' <<EOF
list 1 bytes 40 rows 9
list 2 bytes 64 rows 8
end 104
EOF

{ primes; words 256 1 256 1 256 1 256 1 256 1 256 1 256 1 256 1 256 0; } >"$room/in"
expect 'nine nested lists' <<EOF
list 1 bytes 40 rows 9
stop 27 at 104 depth 8
EOF

# a list of 1,022 numbers has 4,096 bytes, and eight of them 32,768
words 7 >"$room/numbers"
twice "$room/numbers" 10
{ words 257 1022; head -c 4088 "$room/numbers"; } >"$room/in"
twice "$room/in" 3
expect '32,768 bytes, eight lists of 4,096' <<EOF
list 1 bytes 4096 rows 1023
list 2 bytes 4096 rows 1023
list 3 bytes 4096 rows 1023
list 4 bytes 4096 rows 1023
list 5 bytes 4096 rows 1023
list 6 bytes 4096 rows 1023
list 7 bytes 4096 rows 1023
list 8 bytes 4096 rows 1023
end 32768
EOF

printf '\000' >>"$room/in"
expect '32,769 bytes' <<EOF
too long
EOF

{ primes; words 257 1023; cat "$room/numbers"; } >"$room/in"
expect 'a list of 1,023 numbers' <<EOF
list 1 bytes 40 rows 9
stop 28 at 4136 depth 1
EOF

words 256 0 >"$room/in"
twice "$room/in" 12
seq 4096 | awk '{ print "list " $1 " bytes 8 rows 1" } END { print "end 32768" }' >"$room/lines"
expect '32,768 bytes, 4,096 empty lists' <"$room/lines"

head -c 1000000 /dev/zero >"$room/in"
expect 'a million bytes' <<EOF
too long
EOF

exit $failed
