#!/bin/sh
# Runs the line program on inputs whose lines ticket e gives, and compares what it prints. Exits with 1 where one differs.
# Usage: tests/line_cases.sh [PROGRAM]    (default target/bin/line, which `make built` puts there)
set -eu
name=line
program=${1:-target/bin/line}
. "$(dirname "$0")/program_cases.sh"

ping() {
    printf '\000\004\002\001\002\001'
}

: >"$room/in"
expect 'no bytes' <<EOF
end 0 fresh
EOF

ping >"$room/in"
expect 'PING' <<EOF
packet at 0 bytes 6 type 1
end 6 fresh
EOF

{ printf 'ab'; ping; printf 'cde'; } >"$room/in"
expect 'noise, PING, noise' <<EOF
refused 2 at 0
packet at 2 bytes 6 type 1
refused 2 at 8
end 11 skipping
EOF

{ ping; ping; } >"$room/in"
expect 'two PINGs' <<EOF
packet at 0 bytes 6 type 1
packet at 6 bytes 6 type 1
end 12 fresh
EOF

{ printf '\000\006\002\001'; ping; } >"$room/in"
expect 'a packet that is cut, and PING' <<EOF
refused 4 at 4
packet at 4 bytes 6 type 1
end 10 fresh
EOF

printf '\000\000' >"$room/in"
expect '00 00' <<EOF
refused 3 at 1
end 2 length
EOF

{ printf '\000'; ping; } >"$room/in"
expect '00 and PING' <<EOF
refused 3 at 1
packet at 1 bytes 6 type 1
end 7 fresh
EOF

{ printf '\000\001ab'; ping; printf '\000\002'; ping; printf '\000\003abc'; } >"$room/in"
expect 'length bytes of 1 to 3' <<EOF
refused 3 at 1
packet at 4 bytes 6 type 1
refused 3 at 11
packet at 12 bytes 6 type 1
refused 3 at 19
end 23 skipping
EOF

printf '\000' >"$room/in"
expect 'a 00 and no more' <<EOF
end 1 length
EOF

printf '\000\004' >"$room/in"
expect 'a length byte of 4 and no more' <<EOF
end 2 inside
EOF

printf '\000\377\001' >"$room/in"
expect 'a length byte of 255 and one byte more' <<EOF
end 3 inside
EOF

# 5 to 8, each with bytes behind it that give nothing: the last block passes the end
{ printf '\000\004\002\001\003\001ab'; ping; } >"$room/in"
expect '5' <<EOF
refused 5 at 5
packet at 8 bytes 6 type 1
end 14 fresh
EOF

# a payload length of 1 and no payload
{ printf '\000\004\004\001\001\001ab'; ping; } >"$room/in"
expect '6' <<EOF
refused 6 at 5
packet at 8 bytes 6 type 1
end 14 fresh
EOF

# a checksum of 3 for a PING
{ printf '\000\004\002\001\002\003ab'; ping; } >"$room/in"
expect '7' <<EOF
refused 7 at 5
packet at 8 bytes 6 type 1
end 14 fresh
EOF

# type 9
{ printf '\000\004\002\011\002\011ab'; ping; } >"$room/in"
expect '8' <<EOF
refused 8 at 5
packet at 8 bytes 6 type 1
end 14 fresh
EOF

# type 0, for which there is a block of no bytes
{ printf '\000\004\001\001\001\001'; ping; } >"$room/in"
expect '8 for type 0' <<EOF
refused 8 at 5
packet at 6 bytes 6 type 1
end 12 fresh
EOF

# LOG of 251 letters, whose exclusive or is that of one
{
    printf '\000\377\377\005\373'
    head -c 251 /dev/zero | tr '\000' a
    printf '\237'
} >"$room/longest"
cat "$room/longest" "$room/longest" >"$room/in"
expect 'the longest packet, twice' <<EOF
packet at 0 bytes 257 type 5
packet at 257 bytes 257 type 5
end 514 fresh
EOF

head -c 256 "$room/longest" >"$room/in"
expect 'the longest packet without its last byte' <<EOF
end 256 inside
EOF

{ head -c 256 "$room/longest"; ping; } >"$room/in"
expect 'the longest packet without its last byte, and PING' <<EOF
refused 4 at 256
packet at 256 bytes 6 type 1
end 262 fresh
EOF

# each 00 but the first is a length byte
head -c 32768 /dev/zero >"$room/in"
seq 32767 | awk '{ print "refused 3 at " $1 } END { print "end 32768 length" }' >"$room/lines"
expect '32,768 bytes of 00' <"$room/lines"

printf '\000' >>"$room/in"
expect '32,769 bytes' <<EOF
too long
EOF

head -c 1000000 /dev/zero >"$room/in"
expect 'a million bytes' <<EOF
too long
EOF

for line in "$(dirname "$0")"/../examples/*.line; do
    cp "$line" "$room/in"
    expect "$(basename "$line")" <"${line%.line}.expected"
done

exit $failed
