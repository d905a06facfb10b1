# SPDX-License-Identifier: MIT
# What ./argus and ./replay have in common: how a program is found, made or proved, and how it is
# run. Whoever takes this in has set `top`, the repository's folder, and `name`, the program's crate.

proved=$top/crates/$name/out/$name

say() {
    printf '%s: %s\n' "$name" "$1" >&2
}

# A crate, by default the program's, and those that it stands on, in the order of crates.txt: lowest first.
crates() {
    awk -F: -v name="${1:-$name}" '
        /^[a-z]/ { split($1, head, " "); list[++count] = head[1]; libraries[head[1]] = $2 }
        END {
            needed[name] = 1
            do {
                added = 0
                for (crate in libraries) if (crate in needed) {
                    split(libraries[crate], words, " ")
                    for (at in words) if (words[at] in libraries && !(words[at] in needed)) {
                        needed[words[at]] = 1
                        added = 1
                    }
                }
            } while (added)
            for (at = 1; at <= count; at++) if (list[at] in needed) print list[at]
        }' "$top/crates.txt"
}

# The folders of a crate and those that it stands on: folders_of CRATE KIND..
folders_of() {
    list=$(crates "$1")
    shift
    for kind; do printf '%s\n' "$list" | sed "s|.*|crates/&/$kind|"; done
}

# Whether the proved program is there, and no source is newer.
is_proved() {
    [ -x "$proved" ] || return 1
    # A folder that isn't there has nothing newer.
    newer=$(cd "$top" && find $(folders_of "$name" src specs proofs) -newer "$proved" 2> /dev/null | head -n 1)
    [ -z "$newer" ]
}

# The command of the Rattle kit: of the one that is named, on the path, or where a kit usually lies.
find_kit() {
    if [ -z "${RATTLE_KIT:-}" ] && command -v rt > /dev/null 2>&1; then
        command -v rt
    elif [ -x "${RATTLE_KIT:-/opt/rattle}/bin/rt" ]; then
        echo "${RATTLE_KIT:-/opt/rattle}/bin/rt"
    else
        say "no Rattle kit found: put its command rt on the path, or its folder into RATTLE_KIT"
        return 1
    fi
}

# The file that says which kit it is; where there is none, one that says nothing new.
identity_of_kit() {
    kit=$(readlink -f "$(find_kit 2> /dev/null)") || kit=
    kit=${kit%/bin/rt}/KIT-ID
    if [ -f "$kit" ]; then echo "$kit"; else echo crates.txt; fi
}

# The folder of a crate's unproved build, which is named by a sum of the sources, of what makes it and of the
# kit: kept_folder CRATE
kept_folder() {
    sum=$(
        cd "$top"
        {
            find $(folders_of "$1" src) -name '*.rt' | LC_ALL=C sort
            printf '%s\n' crates.txt tools/unproved.py "$(identity_of_kit)"
        } | xargs sha256sum | sha256sum
    )
    printf '%s/build/unproved/%s-%.16s\n' "$top" "$1" "$sum"
}

# What an unproved build of a crate is called.
file_of() {
    if [ "$1" = argus_c ]; then echo libargus_c.a; else echo "$1"; fi
}

# Sleeps, until it is over or a signal comes, of which a shell would print a line: nap SECONDS
nap() {
    sleep "$1" > /dev/null 2>&1 &
    napping=$!
    wait "$napping" 2> /dev/null
}

# Says how long something takes so far; on a terminal in one line, else in a line each half minute:
# tell_progress WHAT SECONDS
tell_progress() {
    if [ -t 2 ]; then
        printf '\r%s: %s: %s s so far' "$name" "$1" "$2" >&2
    elif [ $(($2 % 30)) = 0 ]; then
        say "$1: $2 s so far"
    fi
}

# Counts the seconds until it is ended, or the launcher has: tell_seconds WHAT
tell_seconds() {
    napping=
    trap 'kill $napping 2> /dev/null && wait "$napping" 2> /dev/null; exit 0' TERM
    seconds=0
    while nap 1 && kill -0 $$ 2> /dev/null; do
        seconds=$((seconds + 1))
        tell_progress "$1" "$seconds"
    done
}

# Ends these processes, which may have ended, and waits for all: end PROCESS..
end() {
    [ "$#" = 0 ] || kill "$@" 2> /dev/null || :
    wait 2> /dev/null || :
}

# Lets one call at a time make builds of a crate.
wait_for_turn() {
    command -v flock > /dev/null || return 0
    exec 9> "$top/build/unproved/$1.lock"
    flock -n 9 || {
        say "another call compiles it; waiting for that"
        flock 9
    }
    # What an earlier call left that was killed.
    rm -rf "$top/build/unproved/$1-making".*
}

# Keeps the newest builds of a crate, for those who go back and forth between versions.
leave_newest() {
    (cd "$top/build/unproved" && ls -dt "$1"-[0-9a-f]* | tail -n +5 | xargs -r rm -rf)
}

# Makes the unproved build in the folder `making`: compile CRATE
compile() {
    begin=$(date +%s)
    what="compiling $1 without proof"
    tell_progress "$what" 0
    # The lock isn't the ticker's: `exec` gives it up, where a redirection of the call would keep a copy.
    { exec 9>&-; tell_seconds "$what"; } &
    ticker=$!
    # The launcher waits for it, since a shell hears no signal while it runs a command.
    "$top/tools/unproved.py" "$1" "$making/$(file_of "$1")" < /dev/null > "$making/log" 2>&1 9>&- &
    maker=$!
    # A wait may end early, where a signal comes that the caller ignores.
    { wait "$maker" && [ -s "$making/$(file_of "$1")" ]; } || compiled=no
    [ "${compiled:-}" = no ] || maker=
    end "$ticker"
    ticker=
    if [ "${compiled:-}" = no ]; then
        [ ! -t 2 ] || echo >&2
        cat "$making/log" >&2
        say "not compiled, as the lines above say"
        exit 1
    fi
    # What comes next is longer than the line that it takes the place of.
    [ ! -t 2 ] || printf '\r' >&2
    rm "$making/log"
}

# Leaves nothing of a build that isn't made.
leave_nothing() {
    if [ -n "$ticker" ] && [ -t 2 ]; then echo >&2; fi
    end $ticker $maker
    rm -rf "$making"
}

# Makes an unproved build of the sources as they stand, if another call hasn't meanwhile: keep CRATE
keep() {
    find_kit > /dev/null
    mkdir -p "$top/build/unproved"
    wait_for_turn "$1"
    kept=$(kept_folder "$1")
    if [ ! -e "$kept" ]; then
        making=$(mktemp -d "$top/build/unproved/$1-making.XXXXXX")
        ticker=
        maker=
        trap leave_nothing EXIT
        trap 'exit 1' HUP INT QUIT TERM
        compile "$1"
        if [ "$(kept_folder "$1")" != "$kept" ]; then
            say "the sources changed while they were compiled: try again"
            exit 1
        fi
        mv "$making" "$kept"
        trap - EXIT HUP INT QUIT TERM
        say "compiled in $(($(date +%s) - begin)) s, and kept; this build isn't proved"
        leave_newest "$1"
    fi
    exec 9>&-
}

# Says how far the proof is, now and each minute until it is ended: tell_minutes WHERE BEGIN
tell_minutes() {
    napping=
    trap 'kill $napping 2> /dev/null && wait "$napping" 2> /dev/null; exit 0' TERM
    while kill -0 $$ 2> /dev/null; do
        say "$1; $((($(date +%s) - $2) / 60)) min so far"
        nap 60
    done
}

# Proves each crate, lowest first, and builds the program, which it then runs on an empty input.
prove() {
    kit=$(find_kit)
    begin=$(date +%s)
    mkdir -p "$top/crates/$name/out"
    log=$top/crates/$name/out/build.log
    : > "$log"
    begun=$top/crates/$name/out/begun
    touch "$begun"
    total=$(crates | wc -l)
    number=0
    ticker=
    trap 'end $ticker' EXIT
    trap 'exit 1' INT TERM
    for crate in $(crates); do
        number=$((number + 1))
        verb=lib
        [ "$crate" != "$name" ] || verb=run
        tell_minutes "crate $number of $total, $crate" "$begin" &
        ticker=$!
        if ! (cd "$top/crates/$crate" && "$kit" "$verb" < /dev/null >> "$log" 2>&1); then
            tail -n 20 "$log" >&2
            say "not proved: see $log"
            exit 1
        fi
        end "$ticker"
        ticker=
    done
    # What was saved since the proof began is newer: it may not have been read.
    touch -r "$begun" "$proved"
    say "proved and built in $((($(date +%s) - begin + 30) / 60)) min; it starts at once from now on"
}

# Whether the words are one, and that asks for help or the version.
asks_for_text() {
    [ "$#" = 1 ] || return 1
    case $1 in -h | --help | -V | --version) return 0 ;; esac
    return 1
}

# Prints what the program prints for this word, from where its texts are kept, without a build.
show_text() {
    case $1 in
        -h | --help) cat "$top/tools/help/$name.txt" ;;
        *)
            source=$top/crates/argus_cli/src/command.rt
            printf '%s %s\n' "$name" "$(sed -n 's/^pub const VERSION: &str = "\(.*\)";/\1/p' "$source")"
            say "neither proved nor compiled yet"
            ;;
    esac
}

# Finds the program, or makes it without proof. It is `program` then.
find_program() {
    program=$proved
    ! is_proved || return 0
    kept=$(kept_folder "$name")
    program=$kept/$name
    if [ ! -x "$program" ]; then
        if asks_for_text "$@"; then
            show_text "$1"
            exit
        fi
        keep "$name"
        program=$kept/$name
    fi
    case $* in -V | --version) say "this build isn't proved" ;; esac
}

# Runs the program on standard input. What it says of a line then names the file, if there is one, too.
run_on_input() {
    status=0
    exec 3>&1
    errors=$("$program" "$@" 2>&1 >&3 3>&-) || status=$?
    [ -z "$errors" ] || printf '%s\n' "$errors" | while IFS= read -r line; do
        case $line in line\ * | 'read fault') line="${file:+$file: }$line" ;; esac
        printf '%s\n' "$line" >&2
    done
    exit "$status"
}

# Proves the program, or runs it: on the file that is named, which the program itself would refuse, or else on
# standard input.
start() {
    if [ "$#" = 1 ] && [ "$1" = --prove ]; then
        prove
        return
    fi
    file=
    takes_value=
    for word; do
        shift
        case $word in
            --database | --list | --patience | --workers) takes_value=yes ;;
            -* | '') takes_value= ;;
            *)
                if [ -z "$takes_value$file" ]; then
                    file=$word
                    continue
                fi
                takes_value=
                ;;
        esac
        set -- "$@" "$word"
    done
    if [ -n "$file" ] && [ ! -r "$file" ]; then
        printf '%s: read fault\n' "$file" >&2
        exit 5
    fi
    find_program "$@"
    if [ -n "$file" ]; then run_on_input "$@" < "$file"; fi
    exec "$program" "$@"
}
