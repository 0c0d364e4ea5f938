# shellcheck shell=sh disable=SC2034,SC2154
# What ./pesp and the tools share. It is sourced by a script that has set `top`, the top of the repository.

# Messages go to standard error, as all does but the program's own bytes.
say() {
    echo "pesp: $*" >&2
}

# Says why nothing can be done, and ends.
fail() {
    say "$@"
    exit 4
}

# Where a crate's program is built, once it is proved.
proved() {
    echo "$top/crates/$1/out/$1"
}

# Where a crate's program lies that is compiled without its proofs: quickly, or optimised as the proved one is.
unproved() {
    echo "$top/out/unproved/$1"
}

fast() {
    echo "$top/out/fast/$1"
}

# The crates that a program is made of, itself among them.
crates_of() {
    awk -F: -v program="$1" '
        function visit(crate, below, count, i) {
            if (crate in seen || !(crate in uses)) return
            seen[crate] = 1
            count = split(uses[crate], below, " ")
            for (i = 1; i <= count; i++) visit(below[i])
        }
        /^[a-z]/ { uses[$1] = $2 }
        END { visit(program); for (crate in seen) print crate }
    ' "$top/crates.txt"
}

# Whether the file of a crate's program isn't there, or is older than a source that the program is made of.
is_stale() {
    [ ! -x "$1" ] || (
        cd "$top/crates" || exit
        # shellcheck disable=SC2046 # a crate's name is one word
        [ -n "$(find ../crates.txt $(crates_of "$2") -path '*/out' -prune -o -newer "$1" \( -name '*.rt' -o -name '*.antt' -o -name crates.txt \) -print | head -n 1)" ]
    )
}

# How many crates are proved side by side: one for each processor and each 4 GB of memory, of that which is available or, with
# the word MemTotal, of all.
side_by_side() {
    awk -v processors="$(nproc)" -v memory="${1-MemAvailable}:" '
        $1 == memory { room = int($2 / 4000000) }
        END { most = room < processors ? room : processors; print most < 1 ? 1 : most }
    ' /proc/meminfo
}

# What a crate's program prints in its stored run: with the words of `args`, over the bytes of `stdin`, in the folder `data`,
# each where there is one.
stored_run() {
    (
        stored=$top/crates/$2
        set -- "$1"
        [ ! -e "$stored/args" ] || while IFS= read -r word; do
            set -- "$@" "$word"
        done <"$stored/args"
        [ ! -e "$stored/stdin" ] || exec <"$stored/stdin"
        [ ! -d "$stored/data" ] || cd "$stored/data" || exit
        exec "$@"
    )
}

# The folder beside the kit in which its gate keeps what it passes; nothing where the kit's scripts name none.
kept_folder() {
    command -v rt >/dev/null || return 0
    kit_scripts=$(dirname "$(readlink -f "$(command -v rt)")")
    ! grep -qs -e -kept "$kit_scripts/rt" "$kit_scripts/rtlib.py" || echo "$(dirname "${kit_scripts%/*}")/rattle-kept"
}

# Why the gate can keep nothing of what it passes; nothing where it can.
why_none_is_kept() {
    kept=$(kept_folder)
    if [ -z "$kept" ]; then
        echo "this kit's gate keeps nothing"
    elif [ ! -w "$kept" ] && { [ -e "$kept" ] || [ ! -w "${kept%/*}" ]; }; then
        echo "nothing can be kept in $kept"
    fi
}

# About how many minutes the proofs of a program take here from nothing, where nothing else is running: a minute and a half of
# a processor for each of its crates, and three for what can't go side by side; in the checkout twice that.
minutes() {
    halves=3
    [ -z "$(why_none_is_kept)" ] || halves=6
    echo "$((halves + $(crates_of "$1" | wc -l) * halves / 2 / $(side_by_side MemTotal)))"
}

# The program to be handed on: the proved one, or one without proofs where that is asked for.
chosen() {
    case $1 in
    proved) ! is_stale "$(proved pesp)" pesp || fail "no program of these sources is proved here: ./pesp --prove makes one; BUILD=unproved hands on one whose proofs were not checked" ;;
    fast) ! is_stale "$(fast pesp)" pesp || fail "no such program of these sources is there: ./pesp --fast makes one" ;;
    unproved) ! is_stale "$(unproved pesp)" pesp || fail "no program of these sources is there: ./pesp --help makes one" ;;
    *) fail "a build is proved, fast or unproved, not $1" ;;
    esac
    "$1" pesp
}

# One name for the sources as they stand: git's tree of crates/ and crates.txt; nothing where git can't tell.
source_name() {
    command -v git >/dev/null && git -C "$top" rev-parse --git-dir >/dev/null 2>&1 || return 0
    objects=$(mktemp -d "${TMPDIR:-/tmp}/pesp.XXXXXX") || return 0
    name=$(
        cd "$top" || exit
        GIT_ALTERNATE_OBJECT_DIRECTORIES=$(cd "$(git rev-parse --git-common-dir)/objects" && pwd)
        GIT_INDEX_FILE=$objects/index GIT_OBJECT_DIRECTORY=$objects
        export GIT_INDEX_FILE GIT_OBJECT_DIRECTORY GIT_ALTERNATE_OBJECT_DIRECTORIES
        { git add crates crates.txt && git write-tree; } 2>/dev/null
    ) || name=
    rm -rf "$objects"
    echo "$name"
}

# How many megabytes are free in a folder.
free_room() {
    df -Pm "$1" | awk 'NR == 2 { print $4 }'
}

# The folder of the Rattle kit; nothing where there is none.
kit_folder() {
    command -v rt >/dev/null || return 0
    page=$(rt doc 2>/dev/null </dev/null) && dirname "$page"
}

# Waits until no other run does this work in this checkout, and keeps others out until `let_others` or the end.
alone() {
    { mkdir -p "$top/out" && touch "$top/out/$1.lock"; } 2>/dev/null || fail "nothing can be written in $top/out: $2"
    exec 9>>"$top/out/$1.lock"
    command -v flock >/dev/null || return 0
    flock -n 9 || {
        say "another run is at work in this checkout; waiting for it"
        flock 9
    }
}

let_others() {
    exec 9>&-
}

# Runs a command in a session of its own, so that it can be ended with all that it started; where this script is stopped, it is.
child=
in_session() {
    setsid "$@" </dev/null &
    child=$!
    status=0
    wait "$child" || status=$?
    child=
    return "$status"
}

# Ends what was started, and then this script with the status of a signal.
stop() {
    trap - EXIT
    trap '' HUP INT TERM
    [ -z "$child" ] || {
        kill -s TERM -- "-$child" 2>/dev/null || true
        wait "$child" || true
    }
    clear_away
    [ -z "$stopped" ] || say "$stopped" 2>&3
    exit "$1"
}

# What is said where this script is stopped.
stopped=

# What a script does at its end; scripts with files to remove have their own.
clear_away() {
    :
}

at_end() {
    exec 3>&2
    trap clear_away EXIT
    trap 'stop 129' HUP
    trap 'stop 130' INT
    trap 'stop 143' TERM
}
