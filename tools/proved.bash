# Sourced by the wrappers of proved programs: `run_proved NAME WORD..` runs crates/NAME/out/NAME with these words. If it isn't built
# yet, or a source of a crate that it stands on is newer, it is proved and built first, several crates at a time. Standard error says
# so, and each minute (or each TD_SECONDS seconds) how many crates are proved.
top=$(dirname "$(dirname "$(readlink -f "${BASH_SOURCE[0]}")")")

# The program's crate and those that it stands on, by crates.txt.
crates_of() {
    awk -v program="$1" '
        function visit(name, words, count, k) {
            if (name in seen || !(name in line)) return
            seen[name]
            print name
            count = split(line[name], words, " ")
            for (k = 2; k <= count; k++) visit(words[k])
        }
        /^[a-z]/ { name = $1; sub(/:$/, "", name); line[name] = $0 }
        END { visit(program) }' "$top/crates.txt"
}

is_stale() {
    local names
    [ -x "$top/crates/$1/out/$1" ] || return 0
    mapfile -t names < <(crates_of "$1")
    [ -n "$(cd "$top/crates" && find ../crates.txt "${names[@]}" -name out -prune -o \
        -type f \( -name '*.rt' -o -name '*.antt' -o -name crates.txt \) -newer "$1/out/$1" -print -quit)" ]
}

# As many crates at a time as there are processors, and as there are 3 GB of memory for each.
at_once() {
    local processors room
    processors=$(nproc)
    room=$(awk '/^MemAvailable/ { print int($2 / 3000000) }' /proc/meminfo)
    [ "${room:-1}" -ge 1 ] || room=1
    echo $((processors < room ? processors : room))
}

# Says how far the build is whose log this is, until it is stopped.
tell_progress() {
    local total
    total=$(crates_of "$1" | wc -l)
    SECONDS=0
    while sleep "${TD_SECONDS:-60}" && kill -0 $$ 2>/dev/null; do
        echo "$1: $(grep -c '^== ' "$2") of $total crates proved, $((SECONDS / 60)) minutes so far" >&2
    done
}

build() {
    local teller
    log=$(mktemp)
    # (an interrupt ends the script by this, too)
    trap 'rm -f "$log"' EXIT
    echo "$1: not built yet: proving and building it first, an hour and more; TD=$top/td-second with td-check, td-run .. answers at once, unproved; the log: $log" >&2
    rm -f "$top/crates/$1/out/$1"
    tell_progress "$1" "$log" &
    teller=$!
    # In the program's folder `rt all` goes over it and what it stands on alone. Without words the program ends as a wrong command line
    # does, so its status says nothing of the build.
    (cd "$top/crates/$1" && rt all check --jobs "$(at_once)" && rt run </dev/null) >"$log" 2>&1
    kill "$teller" 2>/dev/null
    wait "$teller" 2>/dev/null
    if [ ! -x "$top/crates/$1/out/$1" ]; then
        cat "$log" >&2
        rm -f "$log"
        echo "$1: the program was not built" >&2
        exit 70
    fi
    rm -f "$log"
}

run_proved() {
    # An installed copy has the program, and nothing to build it of.
    [ -x "$top/libexec/$1" ] && exec "$top/libexec/$1" "${@:2}"
    if [ ! -e "$top/crates.txt" ]; then
        echo "$1: the program isn't installed here; TD=td-second with td-check, td-run .. answers at once, unproved" >&2
        exit 70
    fi
    if is_stale "$1"; then
        if ! command -v rt >/dev/null; then
            echo "$1: the program isn't built, or is older than its sources, and \`rt\`, which builds it, isn't on the path; TD=$top/td-second with td-check, td-run .. answers at once, unproved" >&2
            exit 70
        fi
        build "$1"
    fi
    exec "$top/crates/$1/out/$1" "${@:2}"
}
