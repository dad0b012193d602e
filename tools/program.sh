# Sourced by ./memplan and by the Makefile: find_program sets `program` to the program that these very sources make.
#
# That of prebuilt/ is taken where its sum is that of the sources: the merge gate builds it from the proved sources and compares every byte.
# Else, and where MEMPLAN_PROVE is set, the toolchain proves and builds it. A program of other sources is never taken.
# `here` is the repository's folder. Only bash and coreutils are needed, until something has to be built.

readonly FAILED=20  # the status where there is no program: the program itself ends with 0 to 10
ready=$here/prebuilt/Linux-x86_64
built=$here/crates/memplan/out/memplan
# Where only the crates stand that the program is made of, while it is built.
room=$here/out/first-build
# How many seconds of processor time each of them took where README's figure was measured.
times=$here/tools/first_build.txt

tell() {
    echo "memplan: $*" >&2
}

# Whether no source changed since a file was written, nor what else is named. The times of a change of status are compared, which no copying
# of files sets back. The folder of a crate does not count, since out/ comes and goes in it; nor do crates of tests, which no program has.
is_newest() {
    local -a crate=(-path "$here/crates/*" ! -path "$here/crates/*/*")
    [ -e "$1" ] && [ -z "$(find "$here/crates.txt" "$here/tools/toolchain.txt" "$here/crates" "${@:2}" \
        \( -name out -o -name must-fail -o "${crate[@]}" -name '*_tests' \) -prune -o -cnewer "$1" ! \( "${crate[@]}" \) -print -quit 2>&1)" ]
}

# Where it is noted that the sources are those of prebuilt/: in out/, or where nothing can be written here, in the caller's own cache.
find_note() {
    note=$here/out/prebuilt-suits
    [ -w "$here" ] || note=${XDG_CACHE_HOME:-${HOME:-/nonexistent}/.cache}/memplan/prebuilt-suits-$(stat -c %d-%i "$here")
}

# Whether prebuilt/ has the program of these sources, to the byte, and it starts here.
is_prebuilt() {
    [ -z "${MEMPLAN_PROVE:-}" ] && [ -x "$ready/memplan" ] || return 1
    find_note
    is_newest "$note" "$here/prebuilt" && return
    # begun before the sources are read, so that what changes meanwhile is newer
    { mkdir -p "${note%/*}" && : >"$note.$$"; } 2>/dev/null
    if suits; then
        mv -f "$note.$$" "$note" 2>/dev/null
        return 0
    fi
    rm -f "$note.$$"
    return 1
}

suits() {
    if [ "$("$here/tools/sources_sum")" != "$(cat "$here/prebuilt/SOURCES")" ]; then
        tell "the sources are not those of prebuilt/, so its program is not run"
        return 1
    fi
    if ! (cd "$ready" && sha256sum --check --status SUMS); then
        tell "what lies in prebuilt/ is damaged, so its program is not run"
        return 1
    fi
    # with no words it only says how it is used
    "$ready/memplan" >/dev/null 2>&1
    if [ $? -ne 2 ]; then
        tell "the program of prebuilt/ does not start here: prebuilt/README.md says what it needs"
        return 1
    fi
}

# ---- what is proved and built here

# The crates that the log says are proved, how many there are, and how many minutes are left, if the others take as much longer as these did.
progress() {
    awk -v seconds="$2" 'NR == FNR { if (/^crate [a-z_]*:/) { sub(":", "", $2); proved[$2] } next }
        { if ($1 in proved) { count++; done += $2 } else left += $2 }
        END { print count + 0, FNR, done ? int(left * seconds / done / 60 + 1) : 0 }' "$1" "$times"
}

# Tells of each crate when it is proved.
watch() {
    local shown=0 count total left
    while sleep 1; do
        read -r count total left < <(progress "$1" "$SECONDS")
        [ "$count" -gt "$shown" ] || continue
        shown=$count
        if [ "$count" = "$total" ]; then
            tell "all $total crates proved after $SECONDS s; compiling, about a minute"
        else
            tell "$count of $total crates proved after $SECONDS s; about $left minutes left"
        fi
    done
}

# Why the build stopped, as far as the log says, and the end of the log in any case.
tell_failure() {
    awk '/^== / { crate = $2 } /^rt: chose --jobs .* for / { crate = $NF }
        /: error|: no proof|not proved|killed/ { if (crate != last) print "memplan: the build stopped at the crate " crate; last = crate; print }' \
        "$1" | head -n 20 >&2
    tell "the build failed; the end of what it said:"
    tail -n 20 "$1" >&2
    [ ! -e "$built" ] || tell "crates/memplan/out/memplan is still there; it is of older sources"
}

# As many crates side by side as there are processors, with 3 GB of memory for each.
lanes() {
    awk -v most="$(nproc)" '/^MemAvailable:/ { fit = int($2 / 3000000) }
        END { n = fit < most ? fit : most; print n < 1 ? 1 : n }' /proc/meminfo
}

# Each line of tools/toolchain.txt is a version that builds the same bytes.
has_toolchain() {
    local known wanted= version=
    ! command -v rt >/dev/null || version=$(rt version 2>&1)
    while read -r known; do
        [ "$known" != "$version" ] || return 0
        wanted=$wanted${wanted:+ or }$known
    done <"$here/tools/toolchain.txt"
    if ! command -v rt >/dev/null; then
        tell "to build the program the Rattle toolchain is wanted, $wanted, and there is no rt on PATH: see README.md, 'Set up'"
    else
        tell "to build the program the Rattle toolchain is wanted, $wanted, and the rt on PATH is $version"
    fi
    return 1
}

# Copies the crates that the program is made of, and takes along what was proved of them before: of the others, those of tests and the library
# for C, nothing is proved. The names after the colon are libraries of the toolchain too.
furnish() {
    local crate part
    local -a crates
    give_back
    mkdir -p "$room/crates" || return
    [ ! -e "$here/HANDLES" ] || cp -p "$here/HANDLES" "$room" || return
    read -ra crates < <(sed -n 's/^memplan://p' "$here/crates.txt")
    for crate in "${crates[@]}" memplan; do
        [ -d "$here/crates/$crate" ] || continue
        grep "^$crate:" "$here/crates.txt" >>"$room/crates.txt"
        mkdir "$room/crates/$crate" || return
        for part in "$here/crates/$crate"/*; do
            case ${part##*/} in
            out) mv "$part" "$room/crates/$crate" ;;
            must-fail) ;;
            *) cp -Rp "$part" "$room/crates/$crate" ;;
            esac || return
        done
    done
}

# Brings back what was proved and built there, also by a build that was killed.
give_back() {
    local kept crate
    for kept in "$room"/crates/*/out; do
        crate=${kept%/out}
        [ ! -d "$kept" ] || [ -e "$here/crates/${crate##*/}/out" ] || mv "$kept" "$here/crates/${crate##*/}"
    done
    rm -rf "$room"
}

# In a shell of its own, so that what it sets up for its end is its own too.
build() (
    has_toolchain || exit 1
    # one build at a time: who comes second takes what the first has made
    mkdir -p "$here/out" && exec 9>"$here/out/building" || exit 1
    if ! flock --nonblock 9; then
        tell "another run is building the program; waiting for it"
        flock 9
    fi
    is_newest "$built" && exit 0
    tell "proving and building the program, once for these sources: this takes 20 to 60 minutes on four processors, where nothing is kept"
    log=$(mktemp) before=$here/out/memplan.before
    watch "$log" &
    watcher=$!
    trap 'kill "$watcher" 2>/dev/null; give_back; rm -f "$log" "$before"' EXIT
    trap 'exit 130' INT TERM
    [ ! -e "$built" ] || cp -p "$built" "$before"
    # the plan of a tree, so that the status says whether it was built
    furnish && (cd "$room/crates" && rt all check --jobs "$(lanes)" && cd memplan && rt run memplan -- post --tree "$here/examples/five.tree") \
        >"$log" 2>&1 </dev/null
    failed=$?
    give_back
    [ "$failed" -ne 0 ] || exit 0
    # a program that works is not lost
    [ -e "$built" ] || [ ! -e "$before" ] || { mkdir -p "${built%/*}" && mv "$before" "$built"; }
    tell_failure "$log"
    exit 1
)

find_program() {
    if [ "$(uname -sm)" != "Linux x86_64" ]; then
        tell "this is $(uname -sm), and memplan is built for Linux on x86-64: prebuilt/README.md says what it needs"
        exit "$FAILED"
    elif is_prebuilt; then
        program=$ready/memplan
    elif is_newest "$built" || build; then
        program=$built
    else
        # above 128: a signal ended it
        [ $? -gt 128 ] && exit 130
        exit "$FAILED"
    fi
}
