# What the launchers at the top share; they read this file.

# Runs the program of a crate with the words given. Proves and builds it first, where it isn't built or is older than its
# sources.
launch() {
    name=$(basename "$0")
    program=$top/crates/$1/out/$1
    is_current || build "$1"
    shift
    exec "$program" "$@"
}

is_current() {
    [ -x "$program" ] || return 1
    newer=$(find "$top/crates.txt" "$top/crates" -name out -prune -o \( -name '*.rt' -o -name '*.antt' -o -name crates.txt \) -newer "$program" -print)
    [ -z "$newer" ]
}

# The libraries that a crate stands on, one a line, each after those that it uses itself.
libraries() {
    awk -v wanted="$1" '
        function visit(crate,   used, count, i) {
            if (!(crate in uses) || seen[crate]++) return
            count = split(uses[crate], used, " ")
            for (i = 1; i <= count; i++) visit(used[i])
            if (crate != wanted) print crate
        }
        !/^#/ && /:/ { crate = $1; sub(/:.*/, "", crate); sub(/^[^:]*:/, ""); uses[crate] = $0 }
        END { visit(wanted) }
    ' "$top/crates.txt"
}

# Waits until the libraries that a library uses are built.
await_used() {
    for used in $(libraries "$1"); do
        until [ -e "$work/built/$used" ]; do
            [ ! -e "$work/failed" ] || return 1
            sleep 0.2
        done
    done
}

# Takes one of as many places as there are processors.
take_place() {
    while :; do
        for place in $(seq "$(nproc)"); do
            mkdir "$work/places/$place" 2>/dev/null && return
        done
        sleep 0.2
    done
}

# Proves and builds a library in a room of its own, with links to what it uses: two that are at work in one folder would
# wait for each other.
prove_in() {
    room=$1
    mkdir -p "$room/crates"
    cp "$top/HANDLES" "$room/"
    grep -E "^($(libraries "$2" | tr '\n' '|')$2)[ :]" "$top/crates.txt" > "$room/crates.txt"
    for used in $(libraries "$2") "$2"; do
        cp -al "$top/crates/$used" "$room/crates/"
    done
    (cd "$room/crates/$2" && rt lib 2>&1)
}

# Proves and builds a library, once those that it uses are built, and says which one on the standard error.
prove() {
    crate=$1
    await_used "$crate" || return 1
    take_place
    echo "$name: proving $crate, $(find "$work/built" -type f | wc -l) of $count done" >&2
    if messages=$(prove_in "$work/rooms/$crate" "$crate"); then
        rm -rf "$top/crates/$crate/out"
        mv "$work/rooms/$crate/crates/$crate/out" "$top/crates/$crate/out"
        : > "$work/built/$crate"
    else
        : > "$work/failed"
        printf '%s\n' "$messages" >&2
        echo "$name: $crate could not be proved and built" >&2
    fi
    rm -rf "$work/rooms/$crate"
    rmdir "$work/places/$place"
    [ -e "$work/built/$crate" ]
}

# Proves and builds the program of a crate with all that it stands on.
build() {
    rm -f "$program"
    mkdir -p "$top/out"
    work=$(mktemp -d "$top/out/build.XXXXXX") || exit 1
    trap 'rm -rf "$work"' EXIT
    mkdir "$work/built" "$work/places" "$work/rooms"
    count=$(libraries "$1" | wc -l)
    echo "$name: proving and building $count libraries and the program; the first time this takes minutes" >&2
    export top name work count
    libraries "$1" | xargs -P "$count" -I CRATE sh -c '. "$top/launch.sh"; prove CRATE || exit 255' || exit 1
    # It is run without words and without input, so its status says nothing of the build.
    messages=$(cd "$top/crates/$1" && rt run 2>&1 </dev/null)
    if [ ! -x "$program" ]; then
        printf '%s\n' "$messages" >&2
        echo "$name: the program could not be built" >&2
        exit 1
    fi
    touch "$program"
    rm -rf "$work"
    trap - EXIT
}
