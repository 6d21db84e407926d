#!/bin/sh
# The most stack that each C call of an archive can take, from its machine code: the
# return address, what each function pushes and reserves, and what it uses below its
# stack pointer, in words of 8 bytes, along the deepest chain of calls. A function that calls itself counts
# nine times: eight lists in each other, and the call that refuses a ninth. A call with more
# numbers than registers, the place of a large answer counted, has 16 bytes of arguments on
# the stack. For x86-64.
#
# With CALL and LIMIT it fails where CALL can take LIMIT bytes or more, or where that is not
# known: it calls what is not in the archive or not named, a function calls itself, or moves
# its stack pointer in another way. A jump through a register is taken for one within the
# function, as a switch is compiled to.
#
# usage: stack_bound.sh ARCHIVE [CALL LIMIT]
set -eu
objdump -dr --no-show-raw-insn "$1" | awk -v call="${2-}" -v limit="${3-0}" '
function hex(text, value, at) {
    value = 0
    for (at = 1; at <= length(text); at++)
        value = 16 * value + index("0123456789abcdef", substr(text, at, 1)) - 1
    return value
}
function end_call() {
    if (pending != "" && (pending in calls_of) == 0) calls_of[pending] = ""
    if (pending != "") calls_of[now] = calls_of[now] " " pending
    pending = ""
}
function bound(name, list, count, at, most, below) {
    if (name in indirect || name in moved || (call != "" && name in itself)) unknown = 1
    if ((name in frame) == 0) {
        unknown = 1
        outside[name] = 1
        return 8
    }
    count = split(calls_of[name], list, " ")
    most = 0
    for (at = 1; at <= count; at++)
        if (list[at] != name) {
            below = bound(list[at])
            if (below > most) most = below
        }
    return most + (frame[name] + below_pointer[name]) * ((name in itself) ? 9 : 1)
}
/^[0-9a-f]+ <.*>:$/ {
    end_call()
    now = $2
    gsub(/^<|>:$/, "", now)
    frame[now] = 8
    below_pointer[now] = 0
    calls_of[now] = ""
    next
}
/R_X86_64_(PLT32|PC32|GOTPCREL)/ {
    if (pending != "" || $2 == "R_X86_64_PLT32") {
        pending = $3
        sub(/[-+]0x[0-9a-f]+$/, "", pending)
        sub(/^\.text\./, "", pending)
    }
    next
}
{ end_call() }
$2 == "push" { frame[now] += 8 }
$2 == "sub" && $3 ~ /^\$0x[0-9a-f]+,%rsp$/ {
    size = $3
    gsub(/^\$0x|,%rsp$/, "", size)
    frame[now] += hex(size)
}
$2 == "and" && $3 ~ /,%rsp$/ { frame[now] += 64 }
$3 ~ /,%rsp$/ && $2 !~ /^(sub|add|and|cmp|test)$/ { moved[now] = 1 }
$2 == "sub" && $3 ~ /^%.*,%rsp$/ { moved[now] = 1 }
$2 == "add" && $3 ~ /^\$0xf[0-9a-f]{15},%rsp$/ { moved[now] = 1 }
match($0, /-0x[0-9a-f]+\(%rsp/) {
    size = int((hex(substr($0, RSTART + 3, RLENGTH - 8)) + 7) / 8) * 8
    if (size > below_pointer[now]) below_pointer[now] = size
}
$2 == "call" && $3 ~ /^\*%/ { indirect[now] = 1 }
$2 == "call" || ($2 == "jmp" && $0 ~ /<.*>/ && $0 !~ /\+0x/) {
    pending = $0
    sub(/^.*</, "", pending)
    sub(/(\+0x[0-9a-f]+)?>.*$/, "", pending)
    if ($2 == "call" && pending == now && $0 !~ /\+0x/) itself[now] = 1
}
END {
    end_call()
    if (call != "") {
        most = bound(call)
        if (unknown) how = "and what is not known here"
        else how = (most < limit ? "below " : "not below ") limit
        printf "%s takes at most %d bytes of stack, %s\n", call, most, how
        exit unknown || most >= limit
    }
    printf "%-28s %8s\n", "function", "its own"
    for (name in frame)
        if (frame[name] > 0)
            printf "%-28s %8d%s\n", name, frame[name] + below_pointer[name], (name in itself) ? " nine times" : ""
    printf "%-28s %8s\n", "call", "at most"
    split("list_decode stream_next hub_receive hub_read text_decode setting_find line_push", with_arguments, " ")
    for (at in with_arguments) arguments["cinder_" with_arguments[at]] = 16
    count = split("packet_decode list_decode stream_next hub_receive hub_detach hub_publish hub_read " \
                  "packet_encode list_encode text_encode text_decode setting_find line_push", public, " ")
    for (at = 1; at <= count; at++) {
        name = "cinder_" public[at]
        if (name in frame)
            printf "%-28s %8d\n", name, bound(name) + arguments[name]
        else
            missing[name] = 1
    }
    for (name in outside) printf "and what %s takes below its return address\n", name
    for (name in indirect) printf "%s calls what is not known here\n", name
    for (name in missing) printf "%s is not in the archive\n", name
    for (name in missing) exit 1
}'
