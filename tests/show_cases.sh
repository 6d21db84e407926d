#!/bin/sh
# Runs the show program on inputs whose lines 01 and 02 give, and compares what it prints. Exits with 1 where one differs.
# Usage: tests/show_cases.sh [PROGRAM]    (default target/bin/show, which `make built` puts there)
set -eu
name=show
program=${1:-target/bin/show}
. "$(dirname "$0")/program_cases.sh"

: >"$room/in"
expect 'no bytes' <<'EOF'
end 0
EOF

{ primes; two_lists 000; } >"$room/in"
expect 'the examples of source document 002' <<'EOF'
2 3 5 7 11 13 17 19
(91 92 93) ("this" "is" "a" "good list")
end 112
EOF

{ primes; two_lists 000; printf '\000\000'; } >"$room/in"
expect 'the examples and 00 00' <<'EOF'
2 3 5 7 11 13 17 19
(91 92 93) ("this" "is" "a" "good list")
stop 21 at 112 depth 0
EOF

# an int, a vocab, a float, a string, a blob and an empty list
{
    words 256 6 1 2147483648 9 7628147 10 0 3220963328 4 7
    printf 'a"\\\001\377~\000'
    words 12 3
    printf '\000\012\377'
    words 256 0
} >"$room/in"
expect 'one of each kind' <<'EOF'
-2147483648 [set] -0x1.c000000000000p+0 "a\"\\\001\377~" {0 10 255} ()
end 70
EOF

words 266 8 0 0 0 2147483648 1 0 4294967295 1048575 0 1048576 0 1072693248 0 1073741824 4294967295 2146435071 >"$room/in"
expect 'floats' <<'EOF'
0x0.0000000000000p+0 -0x0.0000000000000p+0 0x0.0000000000001p-1022 0x0.fffffffffffffp-1022 0x1.0000000000000p-1022 0x1.0000000000000p+0 0x1.0000000000000p+1 0x1.fffffffffffffp+1023
end 72
EOF

# infinity, minus infinity and a NaN between two empty lists; vocabs of 0, a behind a zero, a space, [, ] and 127;
# an inner vocab of 0; then the edges of what a vocab may have
{
    words 256 0 266 1 0 2146435072 266 1 0 4293918720 266 1 1 2146435072 256 0
    words 265 1 0 265 1 24832 265 1 32 265 1 91 265 1 93 265 1 127
    words 256 1 265 1 0 265 4 33 126 8484 2122219134
} >"$room/in"
expect 'lists with no text form' <<'EOF'

refused 31
refused 31
refused 31

refused 31
refused 31
refused 31
refused 31
refused 31
refused 31
refused 31
[!] [~] [$!] [~~~~]
end 180
EOF

{ words 256 0 256 1 256 0; primes; } >"$room/in"
expect 'empty lists' <<'EOF'

()
2 3 5 7 11 13 17 19
end 64
EOF

{ primes; words 256 1 256 1 256 1 256 1 256 1 256 1 256 1 256 0; } >"$room/in"
expect 'eight nested lists' <<'EOF'
2 3 5 7 11 13 17 19
((((((()))))))
end 104
EOF

{ primes; words 256 1 256 1 256 1 256 1 256 1 256 1 256 1 256 1 256 0; } >"$room/in"
expect 'nine nested lists' <<'EOF'
2 3 5 7 11 13 17 19
stop 27 at 104 depth 8
EOF

# a blob of 4,084 bytes of 200 has the longest text, 16,337 characters; eight such lists are 32,768 bytes
printf '\310' >"$room/bytes"
twice "$room/bytes" 12
{ words 268 1 4084; head -c 4084 "$room/bytes"; } >"$room/in"
twice "$room/in" 3
awk 'BEGIN {
    line = "{200"
    for (at = 2; at <= 4084; at++) line = line " 200"
    for (list = 1; list <= 8; list++) print line "}"
    print "end 32768"
}' >"$room/lines"
expect '32,768 bytes, eight lists of the longest text' <"$room/lines"

printf '\000' >>"$room/in"
expect '32,769 bytes' <<'EOF'
too long
EOF

# 1,022 numbers of eleven characters each
words 2147483648 >"$room/numbers"
twice "$room/numbers" 10
{ words 257 1022; head -c 4088 "$room/numbers"; words 257 1023; cat "$room/numbers"; } >"$room/in"
awk 'BEGIN {
    line = "-2147483648"
    for (at = 2; at <= 1022; at++) line = line " -2147483648"
    print line
    print "stop 28 at 8192 depth 1"
}' >"$room/lines"
expect 'lists of 1,022 and of 1,023 numbers' <"$room/lines"

words 256 0 >"$room/in"
twice "$room/in" 12
{ seq 4096 | sed 's/.*//'; echo 'end 32768'; } >"$room/lines"
expect '32,768 bytes, 4,096 empty lists' <"$room/lines"

head -c 1000000 /dev/zero >"$room/in"
expect 'a million bytes' <<'EOF'
too long
EOF

exit $failed
