#!/usr/bin/env bash
# Replays the evening of the faulty sensor and shows what the hub answers, keeps and posts, each posted list as text; then reads back what
# it posted.
set -euo pipefail
cd "$(dirname "$0")/.."
answers=target/demo.answers
posted=target/demo.posted
texts=target/demo.texts

target/bin/replay < examples/evening.capture > "$answers"

# Every list that the hub posted, end to end, as a display receives them, and the text of each.
: > "$posted"
for hex in $(awk '$1 == "posted" { print $3 }' "$answers"); do
    printf "$(echo "$hex" | sed 's/../\\x&/g')" >> "$posted"
done
target/bin/show < "$posted" > "$texts"

echo "A cup sensor on socket 2 and a syrup pump on socket 5; the pump is an old one, of year 5, that sends its INTs in two bytes."
echo "Then bad packets come, nearly all of them from the sensor. Late in the evening the sensor's bytes come as its line brings them, in scraps:"
echo "good packets are found in them, and what is none is told (line refused)."
echo "Each line: what came, and what the hub answered. The table and the posted list are shown where they changed."
echo
paste -d '\t' examples/evening.steps "$answers" | awk -F '\t' -v texts="$texts" '
function byte(hex, at) { return substr(hex, 2 * at + 1, 2) }
function slot(hex, i,    from, p, held) {
    from = 172 * i
    if (byte(hex, from) == "00") return "    slot " i ": empty"
    held = ""
    for (p = 0; p < 32; p++)
        if (byte(hex, from + 12 + p) == "01") held = held " " p "=" substr(hex, 2 * (from + 44 + 4 * p) + 1, 8)
    return "    slot " i ": socket " byte(hex, from + 1) " type " byte(hex, from + 2) " year " byte(hex, from + 3) \
        " uid " substr(hex, 2 * (from + 4) + 1, 16) " held" held
}
{
    split($2, word, " ")
    if (word[1] == "table") {
        if ($2 == table) { print "    table: as before"; next }
        table = $2
        print "    table (hex, low byte first):"
        for (i = 0; i < 4; i++) print slot(word[2], i)
    } else if (word[1] == "posted") {
        getline text < texts
        if ($2 == list) { print "    list: as before"; next }
        list = $2
        print "    list of " word[2] " bytes: " text
    } else {
        print $1 ": " $2
    }
}'

echo
echo "The posted lists, end to end, read by the run program (the first and the last lines):"
target/bin/run < "$posted" | sed -n '1,2p;$p'
echo
echo "The same with the last three bytes lost: the number of the refusal, its place, and how many lists are open there:"
head -c -3 "$posted" | target/bin/run | tail -n 1
