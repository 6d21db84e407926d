# What run_cases.sh, show_cases.sh and line_cases.sh share; they source this file after they have set `name`, the program's name, and `program`, its path.
room=$(mktemp -d)
trap 'rm -rf "$room"' EXIT
failed=0

# numbers as 32-bit words, low byte first
words() {
    for n in "$@"; do
        printf "$(printf '\\%03o\\%03o\\%03o\\%03o' $((n & 255)) $((n >> 8 & 255)) $((n >> 16 & 255)) $((n >> 24 & 255)))"
    done
}

# twice FILE TIMES: doubles a file that many times
twice() {
    for _ in $(seq "$2"); do
        cat "$1" "$1" >"$room/double"
        mv "$room/double" "$1"
    done
}

# expect CASE: standard input has the lines that the program must print for $room/in
expect() {
    cat >"$room/want"
    "$program" <"$room/in" >"$room/got"
    if cmp -s "$room/want" "$room/got"; then
        echo "$name: $1: ok"
    else
        echo "$name: $1: DIFFERS"
        diff "$room/want" "$room/got" | cut -c 1-120 | head -n 10 || :
        failed=1
    fi
}

primes() {
    words 257 8 2 3 5 7 11 13 17 19
}

# the two-list example; $1 is the byte at the end of its first string
two_lists() {
    words 256 2 257 3 91 92 93 260 4 5
    printf "this\\$1"
    words 3
    printf 'is\000'
    words 2
    printf 'a\000'
    words 10
    printf 'good list\000'
}
