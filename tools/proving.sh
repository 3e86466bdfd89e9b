# Sourced at the top of the repository by panel, build, tests/run and .ci/run: one run of rt at a time, nothing proved twice, and a word while something is.

# What the messages begin with.
me="${me:-$(basename "$0")}"

needs() { # COMMAND WHOSE: the command is there, or the script ends
    if ! command -v "$1" >/dev/null 2>&1; then
        echo "$me: no command '$1' on PATH: it comes with $2" >&2
        exit 1
    fi
}

# Waits until no other script is at work with rt here. A script that this one calls goes on under the same lock.
lock() {
    if [ "${LOCAL_STATISTICS_LOCK:-}" = "$PWD" ]; then
        return
    fi
    if ! { mkdir -p target && exec 9>target/lock; }; then
        echo "$me: $PWD/target cannot be written" >&2
        exit 1
    fi
    if ! flock -n 9; then
        echo "$me: another run is proving or testing here; waiting for it to end" >&2
        flock 9 || exit 1
    fi
    export LOCAL_STATISTICS_LOCK="$PWD"
}

# A crate and those below it, by crates.txt, the lowest first.
below() { # CRATE
    awk -v top="$1" '
        function visit(crate, i, n, each) {
            if (crate in seen || !(crate in rest)) return
            seen[crate] = 1
            n = split(rest[crate], each, " ")
            for (i = 1; i <= n; i++) visit(each[i])
            print crate
        }
        { sub(/#.*/, ""); at = index($0, ":"); if (!at) next; split(substr($0, 1, at - 1), name, " "); rest[name[1]] = substr($0, at + 1) }
        END { visit(top) }' crates.txt
}

# What a result rests on, and the result itself, as one checksum: the kit, the crates and their files by name, length and contents.
stamp() { # CRATE RESULT
    local crate folders=()
    for crate in $(below "$1"); do
        for part in src specs proofs; do
            [ -d "crates/$crate/$part" ] && folders+=("crates/$crate/$part")
        done
    done
    local kit
    kit="$(dirname "$(readlink -f "$(command -v rt)")")/../KIT-ID"
    {
        if [ -r "$kit" ]; then cat "$kit"; else rt version; fi
        cat crates.txt
        find "${folders[@]}" -type f -printf '%p %s\n' | LC_ALL=C sort
        find "${folders[@]}" -type f -print0 | LC_ALL=C sort -z | xargs -0 cat
        cat "$2"
    } 2>/dev/null | sha256sum
}

# Whether a result is what it was when `keep` was last called for it, and all that it rests on.
kept() { # CRATE RESULT
    [ -e "$2" ] && [ -r "target/stamps/$1" ] && [ "$(cat "target/stamps/$1")" = "$(stamp "$1" "$2")" ]
}
keep() { # CRATE RESULT
    mkdir -p target/stamps && stamp "$1" "$2" >"target/stamps/$1"
}

# What rt says, as a line of progress: rewritten on a terminal, a line a crate otherwise. Of crates that are proved already rt says nothing; those below one that is
# proved now are.
progress() { # CRATE
    local line each crate="" text all
    local -A done=()
    all="$(below "$1" | wc -l)"
    while IFS= read -r line; do
        case "$line" in
        "rt: chose --jobs "*" for "*)
            crate="${line##* for }"
            [ -t 2 ] && printf '\r%s: proving %s, %d of %d proved, %d min %02d s\e[K' "$me" "$crate" "${#done[@]}" "$all" $((SECONDS / 60)) $((SECONDS % 60)) >&2
            ;;
        logic=proved*)
            [ -n "$crate" ] || continue
            for each in $(below "$crate"); do done[$each]=1; done
            text="$me: proved ${#done[@]} of $all: $crate, $((SECONDS / 60)) min $((SECONDS % 60)) s"
            if [ -t 2 ]; then printf '\r%s\e[K' "$text" >&2; else echo "$text" >&2; fi
            crate=""
            ;;
        esac
    done
    if [ -t 2 ] && [ "${#done[@]}" -gt 0 ]; then printf '\r\e[K' >&2; fi
}

# Runs rt in a crate's folder, which proves what is not proved yet, and shows all that it said where it fails.
proving() { # CRATE WORDS..
    local crate="$1" log status
    shift
    log="$(mktemp)" || exit 1
    SECONDS=0
    (cd "crates/$crate" && rt "$@") </dev/null 9>&- 2>&1 | tee "$log" | progress "$crate"
    status="${PIPESTATUS[0]}"
    [ "$status" -eq 0 ] || cat "$log" >&2
    rm -f "$log"
    return "$status"
}
