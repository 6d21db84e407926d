# Passes on what `rt ci` prints and writes its last line, the tally, to the file that the variable tally names. Where the tally is not
# `N passed, 0 failed`, it is printed too, and the exit status is 1; so it is where the line `rt: ok` counts bad must-fail edits, or is not there.
NR > 1 { print held; fflush() }
{ held = $0 }
/^rt: ok;/ { is_ok = 1 }
/^rt: ok;/ && /, [1-9][0-9]* bad/ { is_bad = 1 }
END {
    if (held !~ /^[1-9][0-9]* passed, 0 failed$/) {
        print held
        exit 1
    }
    if (is_bad || !is_ok) {
        print is_bad ? "must-fail edits are bad: see BAD EDIT above" : "no line rt: ok"
        exit 1
    }
    print held > tally
}
