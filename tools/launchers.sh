#!/usr/bin/env bash
# SPDX-License-Identifier: MIT
# Tries ./argus, ./replay and ./picture: files that are named, what is said of them, help without a build, pages, and
# the builds that are kept. For these a copy of the launchers has a maker in place of the kit: it does what the file
# `meanwhile` says, and copies the program that is there. The last line is 'N passed, M failed', and the status tells
# whether any failed.
#
#   [ARGUS=PROGRAM] [REPLAY=PROGRAM] tools/launchers.sh
#
# The programs have to be built: .ci/run leaves them; others may be named.
set -uo pipefail
export LC_ALL=C

top=$(cd "$(dirname "$0")/.." && pwd)
argus=${ARGUS:-$top/crates/argus/out/argus}
replay=${REPLAY:-$top/crates/replay/out/replay}
# Where nothing is named, ./picture has listings confirmed by the ./replay beside it.
unset REPLAY
passed=0
failed=0
room=$(mktemp -d)
trap 'rm -rf "$room"' EXIT
cd "$room" || exit

# Counts whether the command has this status, prints these lines, and says these: tried STATUS OUTPUT ERRORS COMMAND..
tried() {
    local wanted=$1 output=$2 errors=$3 status=0
    shift 3
    "$@" > stdout 2> stderr < /dev/null || status=$?
    if [ "$status $(cat stdout) $(cat stderr)" = "$wanted $output $errors" ]; then
        passed=$((passed + 1))
    else
        failed=$((failed + 1))
        echo "launchers: FAILED: ${*@Q}: status $status, where $wanted is wanted, and printed"
        head -n 5 stdout stderr
    fi
}

# Runs a command whose output goes to a pipe that nobody reads.
unread() {
    exec 4> >(:)
    wait $!
    "$@" >&4 4>&-
}

# A folder with the launchers, whose builds are copies of this program or, without one, fail: copy_of FOLDER [PROGRAM]
copy_of() {
    mkdir -p "$1/tools" "$1/build/unproved" "$1"/hosts/{page,picture,python/argus_guardian} \
        "$1"/crates/{argus,replay,argus_cli}/src
    cp "$top"/{argus,replay,picture} "$1"
    cp -r "$top"/tools/{program.sh,kept.sh,help} "$1/tools"
    cp -r "$top/hosts/page/parts" "$1/hosts/page"
    cp "$top"/hosts/picture/*.py "$1/hosts/picture"
    cp "$top/hosts/python/argus_guardian/page.py" "$1/hosts/python/argus_guardian"
    cp "$top/crates/argus_cli/src/command.rt" "$1/crates/argus_cli/src"
    printf '%s: argus_cli\n' argus replay > "$1/crates.txt"
    echo '// one' > "$1/crates/argus/src/main.rt"
    printf '#!/bin/sh\necho made >> made\n[ ! -e meanwhile ] || . ./meanwhile\necho words\ncp "%s" "$2"\n' \
        "${2:-/nothing}" > "$1/tools/unproved.py"
    sed -i "s|^find_kit() {|&\n    echo kit; return|" "$1/tools/program.sh"
    chmod +x "$1/tools/unproved.py"
}

# What a first call says, with the seconds left out.
first_call() {
    "$@" 2>&1 | sed 's/[0-9]* s\b/N s/'
}

# How many builds are kept, and whether anything else is: kept_in FOLDER
kept_in() {
    find "$1/build/unproved" -mindepth 1 -maxdepth 1 ! -name '*.lock' | sed 's|.*/||; s/-[0-9a-f]\{16\}$/-SUM/'
}

# How often a build was made.
times_made() {
    wc -l < made
}

of_texts() {
    local program word
    for program in "$argus" "$replay"; do
        for word in --help -h --version -V; do
            tried 0 "$("$program" "$word")" "$(said_of "$word" "${program##*/}")" bare/"${program##*/}" "$word"
        done
    done
    tried 1 '' 'argus: no Rattle kit found: put its command rt on the path, or its folder into RATTLE_KIT' \
        env RATTLE_KIT=/nothing "PATH=$(path_without_kit)" bare/argus
}

# What a launcher says beside the text, where nothing is compiled.
said_of() {
    case $1 in -V | --version) echo "$2: neither proved nor compiled yet" ;; esac
}

# The folders of the path that have no command of the kit.
path_without_kit() {
    local folder kept=
    while IFS= read -r folder; do
        if [ ! -e "$folder/rt" ]; then kept+=${kept:+:}$folder; fi
    done < <(tr : '\n' <<< "$PATH")
    echo "$kept"
}

of_files() {
    printf '%s\n' 'declare x atomic_record[n:int]' foo > 'a faulty one'
    printf '0 begin_top -> a0\n1 commit a0 -> refused Over\n' > faulty
    tried 0 'account {5}' '' kept/argus "$top/docs/first.argus"
    tried 0 'account {5}' '' kept/argus -- "$top/docs/first.argus"
    tried 0 'account base {5}' '' sh -c "kept/argus '$top/docs/first.argus' --list audit | head -n 1"
    tried 5 '' 'write fault' unread kept/argus "$top/docs/first.argus"
    tried 5 '' 'write fault' unread sh -c "kept/argus < '$top/docs/first.argus'"
    tried 3 '' 'a faulty one: line 2: BadWord' kept/argus --workers 2 'a faulty one'
    tried 3 '' 'line 2: BadWord' sh -c "kept/argus < 'a faulty one'"
    tried 5 '' 'nothing: read fault' kept/argus nothing
    tried 5 '' '/: read fault' kept/argus /
    tried 2 '' "$("$argus" --list locks 2>&1)" kept/argus --list locks 'a faulty one'
    tried 2 '' "$("$argus" --list --workers 2>&1)" kept/argus --list --workers 2
    tried 2 '' "$("$argus" faulty 2>&1)" kept/argus 'a faulty one' faulty
    "$argus" --list journal < "$top/docs/first.argus" > journal
    tried 0 'o0 {5}' '' kept/replay journal
    tried 3 '' 'faulty: line 2: NotTheReply: done' kept/replay --list journal faulty
    tried 5 '' 'database: NoFile' kept/replay --database nothing --list journal
    tried 0 '0 begin_top -> a0' 'faulty: line 2: NotTheReply: done' kept/replay faulty --prefix --list=journal
    tried 0 "$(cat "$top/docs/first.svg")" '' kept/picture journal
    tried 3 '' 'faulty: line 2: NotTheReply: done' kept/picture faulty
    tried 3 '' 'line 2: NotTheReply: done' sh -c 'kept/picture < faulty'
    tried 5 '' 'nothing: read fault' kept/picture nothing
    tried 0 "$(cat "$top/docs/first.svg")" '' env "REPLAY=$replay" kept/picture journal
    tried 1 '' 'picture: no program /nothing, which confirms a listing' env REPLAY=/nothing kept/picture journal
}

# The lines that the page of a listing has: lines_of_page WORD..
lines_of_page() {
    kept/picture --html "$@" > run.html && "$top/hosts/page/lines.py" run.html
}

# The names of objects that the page of a listing has: names_of_page WORD..
names_of_page() {
    kept/picture --html "$@" | sed -n '/^<pre id="names"/,/^<.pre>/p' | sed '1d;$d'
}

# A page is made of what is drawn, and refuses what isn't.
of_pages() {
    printf '0 no line\n' > 'no listing'
    mkdir folder_for_rooms
    local -x TMPDIR=$room/folder_for_rooms
    tried 0 "$(cat journal)" '' lines_of_page journal
    tried 0 "$(cat journal)" '' sh -c "kept/picture --html < journal > run.html && '$top/hosts/page/lines.py' run.html"
    tried 0 '' '' lines_of_page /dev/null
    tried 0 account '' names_of_page --script "$top/docs/first.argus" journal
    tried 0 account '' names_of_page "--script=$top/docs/first.argus" journal
    tried 0 account '' names_of_page journal --script <(cat "$top/docs/first.argus")
    tried 0 '' '' names_of_page journal
    tried 3 '' 'no listing: line 1: NoLine at 2' kept/picture --html 'no listing'
    tried 3 '' 'line 1: NoLine at 2' sh -c "kept/picture --html < 'no listing'"
    tried 3 '' 'script: o0: OtherShape' kept/picture --html --script "$top/examples/visitors.argus" journal
    tried 5 '' 'script: read fault' kept/picture --html --script nothing journal
    tried 5 '' '/: read fault' kept/picture --html /
    tried 5 '' 'write fault' unread kept/picture --html journal
    tried 2 '' "$(kept/picture --list 2>&1)" kept/picture --html --list journal
    tried 2 '' "$(kept/picture --script --html 2>&1)" kept/picture --script --html journal
    tried 0 "$(kept/picture --help)" '' kept/picture --html --help
    tried 2 '' "$("$argus" --html 2>&1)" kept/argus --html
    tried 0 '' '' find "$TMPDIR" -mindepth 1
}

of_kept_builds() {
    rm made
    tried 0 'account {5}' "argus: this build isn't proved" sh -c \
        "kept/argus --version > /dev/null; kept/argus < '$top/docs/first.argus'"
    tried 1 '' "cat: made: No such file or directory" cat made
    echo '// two' > kept/crates/argus/src/main.rt
    tried 0 'argus: compiling argus without proof: N s so far
argus: compiled in N s, and kept; this build isn'"'"'t proved
account {5}' '' first_call kept/argus "$top/docs/first.argus"
    echo '// one' > kept/crates/argus/src/main.rt
    tried 0 'account {5}' '' kept/argus "$top/docs/first.argus"
    tried 0 1 '' times_made
}

# Waits until a file is there, or has this line; half a minute at most: wait_for FILE [LINE]
wait_for() {
    local tries
    for ((tries = 0; tries < 1500; tries++)); do
        if [ -e "$1" ] && { [ "$#" = 1 ] || grep -qxF "$2" "$1"; }; then return; fi
        sleep 0.02
    done
}

# Two calls at once make one build; the other one waits for it.
of_calls_at_once() {
    local other='argus: another call compiles it; waiting for that'
    rm -rf kept/build/unproved/* made
    echo 'touch begun; until [ -e waited ]; do sleep 0.02; done' > meanwhile
    kept/argus "$top/docs/first.argus" > first 2> /dev/null &
    wait_for begun
    kept/argus "$top/docs/first.argus" > second 2> said &
    wait_for said "$other"
    touch waited
    wait
    tried 0 "$(printf 'account {5}\naccount {5}\n%s' "$other")" '' cat first second said
    tried 0 1 '' times_made
    tried 0 argus-SUM '' kept_in kept
}

# A build that fails, or whose sources change meanwhile, leaves nothing.
of_failures() {
    tried 1 'argus: compiling argus without proof: N s so far
words
cp: cannot stat '"'/nothing'"': No such file or directory
argus: not compiled, as the lines above say' '' first_call broken/argus "$top/docs/first.argus"
    tried 0 '' '' kept_in broken
    rm -rf kept/build/unproved/*
    echo 'echo "// three" > kept/crates/argus/src/main.rt' > meanwhile
    tried 1 'argus: compiling argus without proof: N s so far
argus: the sources changed while they were compiled: try again' '' first_call kept/argus "$top/docs/first.argus"
    tried 0 '' '' kept_in kept
}

# Whether no process of a group is left, now or in a moment: is_over GROUP
is_over() {
    local tries
    for ((tries = 0; tries < 250; tries++)); do
        kill -0 -- "-$1" 2> /dev/null || return 0
        sleep 0.02
    done
    return 1
}

# Nor does one that is interrupted, be it the launcher alone or all that it has begun, as from a terminal; and nothing
# goes on: interrupted SIGNAL WHO
interrupted() {
    local pid
    rm -f begun
    # Whoever called this may ignore a signal, which a shell then ignores, too.
    env --default-signal setsid kept/argus "$top/docs/first.argus" > said 2>&1 &
    pid=$!
    wait_for begun
    kill "-$1" -- "${2/PID/$pid}"
    tried 1 '' '' wait "$pid"
    tried 0 '' '' is_over "$pid"
    tried 0 '' '' kept_in kept
}

of_interrupts() {
    rm -rf kept/build/unproved/*
    echo 'touch begun; exec sleep 60' > meanwhile
    interrupted TERM PID
    interrupted TERM -PID
    interrupted HUP -PID
    interrupted INT -PID
}

for program in "$argus" "$replay"; do
    if [ ! -x "$program" ]; then
        echo "launchers: no program $program: .ci/run leaves it"
        echo "0 passed, 1 failed"
        exit 1
    fi
done
copy_of kept "$argus"
copy_of broken
copy_of bare
cp "$top/tools/program.sh" bare/tools
of_texts
mkdir -p kept/crates/replay/out
cp "$replay" kept/crates/replay/out/replay
kept/argus < /dev/null 2> /dev/null
of_files
of_pages
of_kept_builds
of_calls_at_once
of_failures
of_interrupts
echo "$passed passed, $failed failed"
[ "$failed" = 0 ]
