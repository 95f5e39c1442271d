# Proves and compiles crates. ./ubi_tool and c/build.sh read this; they set `here`, the path of the repository from / on.
# Libraries are proved side by side, each once those that it uses are made, and hand on their statements alone.

# What the kit's compiler makes of each library, and its log and marks: NAME.rlib, NAME.log, NAME.running, NAME.made.
libraries=$here/crates/ubi_tool/out/launched/libraries

# The libraries that a crate uses, as crates.txt has them.
uses() {
    sed -n -e "s/^$1: *//p" -e "s/^$1 staticlib: *//p" "$here/crates.txt"
}

# Whether a library is one of the repository.
is_ours() {
    [ -d "$here/crates/$1" ]
}

# The libraries of the repository that a crate stands on: first those from which most steps lead to it.
below() {
    tac "$here/crates.txt" | awk -v top="$1" '
        BEGIN { steps[top] = 1 }
        { name = $1; sub(":", "", name) }
        name in steps {
            if (name != top) print steps[name], name
            for (i = 2; i <= NF; i++) if (steps[$i] <= steps[name]) steps[$i] = steps[name] + 1
        }' | sort -rn | sed 's/.* //'
}

# Whether a library is made, and nothing that it was made of is newer.
is_made() {
    mark=$libraries/$1.made
    [ -e "$mark" ] && [ -z "$(find "$here/crates/$1"/src "$here/crates/$1"/specs "$here/crates/$1"/proofs \
        -newer "$mark" 2>/dev/null | head -n 1)" ] || return 1
    is_ready "$1" || return 1
    for used in $(uses "$1"); do
        [ "$libraries/$used.made" -nt "$mark" ] && return 1
    done
    return 0
}

# Whether all libraries of the repository that a library uses are made.
is_ready() {
    for used in $(uses "$1"); do
        if is_ours "$used" && [ ! -e "$libraries/$used.made" ]; then
            return 1
        fi
    done
    return 0
}

# Proves a crate and compiles it, as `rt ci` does: over the statements of the libraries that it uses. The root file and
# more words follow its name.
compile() {
    name=$1 root=$2
    shift 2
    for used in $(uses "$name"); do
        place=$kit/rlibs
        if is_ours "$used"; then
            place=$libraries
        fi
        set -- --extern "$used=$place/$used.rlib" "$@"
    done
    cd "$here/crates/$name" && "$kit/bin/rattle" build "$root" --crate-name "$name" --links "$name=" \
        --extern "std=$kit/rlibs/std.rlib" -L "dependency=$kit/rlibs" -L "dependency=$libraries" \
        --antt-project "$kit/rattle/logic/antt-project.json" --logic-built "$kit/logic_built" --jobs "$jobs" "$@"
}

# Makes a library. Its mark has the time of the beginning: a source that is edited meanwhile is newer.
library() {
    part=$libraries/$1
    : >"$part.begin"
    if compile "$1" src/lib.rt --statements -o "$part.part" >"$part.log" 2>&1 && rm -rf "$part.rlib" &&
        mv "$part.part" "$part.rlib" && mv "$part.begin" "$part.made"; then
        echo "proved $1"
    else
        : >"$libraries/failed"
        echo "$1 failed"
    fi
    cat "$part.log"
    rm -f "$part.running"
    echo "$1" >&8
}

# How many libraries are made at the same time, and how many processes one of them gets at most: as many as processors and
# memory allow.
count_lanes() {
    processors=$(nproc 2>/dev/null || echo 1)
    free=$(sed -n 's/^MemAvailable: *\([0-9]*\) kB$/\1/p' /proc/meminfo 2>/dev/null)
    room=$((${free:-0} / 4000000))
    lanes=$(((processors + 2) / 2)) most=$processors
    if [ "$room" -lt 3 ] && [ "$most" -gt 2 ]; then
        most=2
    fi
    if [ "$room" -lt 2 ]; then
        most=1
    fi
    if [ "$lanes" -gt "$room" ]; then
        lanes=$room
    fi
    if [ "$lanes" -lt 1 ]; then
        lanes=1
    fi
}

# How many processes each library gets that begins now: the processors are shared by those that are being made or are ready.
share_jobs() {
    share=$running
    for name in $(below "$goal"); do
        if [ ! -e "$libraries/$name.made" ] && [ ! -e "$libraries/$name.running" ] && is_ready "$name"; then
            share=$((share + 1))
        fi
    done
    if [ "$share" -gt "$lanes" ]; then
        share=$lanes
    fi
    jobs=$most
    if [ "$share" -gt 1 ] && [ $(((processors + share - 1) / share)) -lt "$most" ]; then
        jobs=$(((processors + share - 1) / share))
    fi
}

# Makes what isn't made yet of the libraries that a crate stands on, several at the same time, each once those that it
# uses are made. Each that ends says so by a line. A second call at the same time waits for the first, and then finds its
# work done.
prove_below() {
    goal=$1 ends=$libraries/ends running=0
    mkdir -p "$libraries" && exec 9>"$libraries/lock" && flock 9 || return 1
    found=$(rt version)
    if [ "$(cat "$libraries/kit" 2>/dev/null)" != "$found" ] || [ "$here/crates.txt" -nt "$libraries/kit" ]; then
        rm -f "$libraries"/*.made
        printf '%s\n' "$found" >"$libraries/kit"
    fi
    kit=$(dirname "$(rt doc)")
    count_lanes
    rm -f "$libraries"/*.running "$libraries/failed" "$ends"
    mkfifo "$ends" && exec 8<>"$ends" || return 1
    for name in $(below "$goal"); do
        is_made "$name" || rm -f "$libraries/$name.made"
    done
    while start_ready; do
        read -r ended <&8
        running=$((running - 1))
        [ ! -e "$libraries/failed" ] || break
    done
    wait
    jobs=$most
    [ ! -e "$libraries/failed" ]
}

# Begins with the libraries that are ready, as far as there are lanes. Whether more are to be made.
start_ready() {
    share_jobs
    more=1
    for name in $(below "$goal"); do
        if [ -e "$libraries/$name.made" ] || [ -e "$libraries/$name.running" ]; then
            continue
        fi
        if [ "$running" -lt "$lanes" ] && is_ready "$name"; then
            : >"$libraries/$name.running"
            running=$((running + 1))
            library "$name" &
        else
            more=0
        fi
    done
    return "$more"
}

# How far the work for a crate is: how many libraries are made, and which are being made, with how many of their functions
# are proved.
how_far() {
    total=0 done=0 now=
    for name in $(below "$1"); do
        total=$((total + 1))
        if [ -e "$libraries/$name.running" ]; then
            far=$(sed -n 's/^so far: \([0-9]* of [0-9]*\) functions.*/ \1/p' "$libraries/$name.log" 2>/dev/null | tail -n 1)
            now="$now, ${name#ubi_}$far"
        elif [ -e "$libraries/$name.made" ]; then
            done=$((done + 1))
        fi
    done
    echo "$done of $total libraries done${now:-, $1}"
}
