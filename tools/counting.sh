# SPDX-License-Identifier: MIT
# What ./test and .ci/run have in common: the parts that both run, and how they add up what these have counted.
# Whoever takes this in has set `room`, a folder for what is held back.

passed=0
failed=0

# Prints all lines but the last, which goes to a file: hold_last FILE
hold_last() {
    : > "$1"
    awk -v last="$1" 'NR > 1 { print line; fflush() } { line = $0 } END { if (NR > 0) print line > last }'
}

# Prints what a script printed but for its last line, and adds the numbers of that: count FILE
count() {
    hold_last "$room/counted" < "$1"
    if [[ $(cat "$room/counted") =~ ^([0-9]+)\ passed,\ ([0-9]+)\ failed$ ]]; then
        passed=$((passed + BASH_REMATCH[1]))
        failed=$((failed + BASH_REMATCH[2]))
    else
        cat "$room/counted"
        failed=$((failed + 1))
    fi
}

# Counts a command by its status: count_status WHAT COMMAND..
count_status() {
    if "${@:2}"; then
        passed=$((passed + 1))
        echo "$1 passed"
    else
        failed=$((failed + 1))
        echo "$1 FAILED"
    fi
}

# What guardian_tests prints, as this program of it: count_tests PROGRAM
count_tests() {
    count_status "guardian_tests:" prints_as_stored "$1"
}

prints_as_stored() {
    (cd crates/guardian_tests/data && "$1") | diff - crates/guardian_tests/stdout
}

# The rows of the programs, and the launchers, over the programs that are proved, or that ARGUS and REPLAY name.
count_programs() {
    tools/programs/run.py > "$room/programs" 2>&1 || true
    count "$room/programs"
    tools/launchers.sh > "$room/launchers" 2>&1 || true
    count "$room/launchers"
}

# What README.md and docs/GUIDE.md show, once the programs and the library for C are there.
count_shown() {
    count_status "README.md, docs/GUIDE.md: what they show" tools/readme.py
}
