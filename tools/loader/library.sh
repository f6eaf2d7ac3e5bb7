#!/usr/bin/env bash
# Prints the folder that holds libvexil_compat.a: $VEXIL_COMPAT_LIB, or else target/staticlib. There the library is proved and built, unless
# it is there already, made of just the bytes that the crates have now: target/staticlib/made-of tells of what it is made, itself included.
# One call builds at a time, and others wait for it. On a terminal it shows how far it is; the log is target/staticlib.log.
#
# It is proved with the kit of KIT-ID. VEXIL_COMPAT_ANY_KIT=1 takes what another kit proves.
set -euo pipefail
unset CDPATH
here=$(cd "$(dirname "${BASH_SOURCE[0]}")" && pwd)
repo=$(cd "$here/../.." && pwd)
# shellcheck source=tools/loader/lock.sh
. "$here/lock.sh"
# shellcheck source=tools/proved.sh
. "$repo/tools/proved.sh"
name=vexil_compat
folder=${VEXIL_COMPAT_LIB:-}
if [ -n "$folder" ]; then
    if [ ! -f "$folder/lib$name.a" ]; then
        echo "library.sh: there is no lib$name.a in $folder" >&2
        exit 1
    fi
    cd "$folder" && pwd
    exit
fi

folder=$repo/target/staticlib
log=$repo/target/staticlib.log
pinned=$(cat "$repo/KIT-ID")
progress=

lines=$(lines_of $name)
mapfile -t below < <(names_in "$lines" | grep -vx $name)
if ! names_in "$lines" | grep -qx $name; then
    echo "library.sh: crates.txt has no line of $name" >&2
    exit 1
fi
# The crates below the library, as a repository, and beside it the library's own crate: for Rattle it is one like the others, and here one for C.
copy=$(copy_of $name)
copied=$copy/below/crates
own=$copy/own

hash_of() {
    sha256sum | cut -d' ' -f1
}

# What a library is made of: what its crates rest on, and their files.
made_of() { # FOLDER-OF-THOSE-BELOW FOLDER-OF-ITS-OWN
    {
        LC_ALL=C sort <<< "$lines"
        sums_in "$1" "${below[@]}"
        sums_in "$2" $name
    } | hash_of
}

is_current() {
    local sources archive kit
    [ -f "$folder/made-of" ] && [ -f "$folder/lib$name.a" ] || return 1
    sources=$(made_of "$repo/crates" "$repo/crates") || exit 1
    archive=$(hash_of < "$folder/lib$name.a")
    kit=$(sed -n 's/^kit //p' "$folder/made-of")
    [ "$kit" = "$pinned" ] || [ -n "${VEXIL_COMPAT_ANY_KIT:-}" ] || return 1
    [ "$(cat "$folder/made-of")" = "$(printf 'crates %s\nlibrary %s\nkit %s' "$sources" "$archive" "$kit")" ]
}

check_kit() {
    if ! command -v rt > /dev/null; then
        echo 'library.sh: there is no rt here. The library is proved before it answers, and rt is the toolchain that proves it:' >&2
        echo "  $pinned (KIT-ID)" >&2
        exit 1
    fi
    kit=$(rt version)
    if [ "$kit" != "$pinned" ] && [ -z "${VEXIL_COMPAT_ANY_KIT:-}" ]; then
        echo 'library.sh: the toolchain here is not the one that the proofs were made with:' >&2
        echo "  here    $kit" >&2
        echo "  KIT-ID  $pinned" >&2
        echo '  VEXIL_COMPAT_ANY_KIT=1 in the environment takes what the one here proves.' >&2
        exit 1
    fi
}

# How many crates are proved, which is in hand, and the time gone, every second for as long as this script runs.
show_progress() {
    local crate proved now began=$SECONDS gone
    echo "vexil-compat: the library is proved first, $((${#below[@]} + 1)) crates; this takes some minutes, once" >&2
    while kill -0 $$ 2> /dev/null; do
        proved=0 now=
        for crate in "${below[@]}" $name; do
            if [ -e "$copied/$crate/out/rlib/$crate.rlib" ]; then
                proved=$((proved + 1))
            elif [ -z "$now" ]; then
                now=$crate
            fi
        done
        gone=$((SECONDS - began))
        printf '\r\033[K  %d of %d crates proved%s (%d:%02d)' "$proved" "$((${#below[@]} + 1))" "${now:+, now $now}" $((gone / 60)) $((gone % 60)) >&2
        sleep 1
    done
}

stop_progress() {
    if [ -n "$progress" ]; then
        kill "$progress" 2> /dev/null || true
        printf '\r\033[K' >&2
    fi
    progress=
}

# Proves the library's own crate over what is proved of those below it, and compiles it with all that it reaches.
archive() {
    local rattle kit crate words=()
    rattle=$(dirname "$(readlink -f "$(command -v rt)")")/rattle
    kit=$(dirname "$(dirname "$rattle")")
    for crate in "${below[@]}"; do
        words+=(--extern "$crate=$copied/$crate/out/rlib/$crate.rlib")
    done
    cd "$own/$name"
    "$rattle" build --crate-name $name --crate-type staticlib src/lib.rt "${words[@]}" --extern "std=$kit/rlibs/std.rlib" -L "dependency=$kit/rlibs" \
        --antt-project "$kit/rattle/logic/antt-project.json" --logic-built "$kit/logic_built" --toolchain "$kit/toolchain" --backend llvm \
        --jobs "$(nproc)" -o "$folder/lib$name.a"
}

prove() {
    if [ -t 2 ]; then
        show_progress 9<&- &
        progress=$!
        trap stop_progress EXIT
    fi
    if ! { (cd "$copy/below" && rt ci) && (archive); } > "$log" 2>&1; then
        stop_progress
        rm -f "$folder/lib$name.a"
        tail -20 "$log" >&2
        echo "library.sh: the library is not proved; the whole log is $log" >&2
        exit 1
    fi
    stop_progress
}

build() {
    local sources archive
    check_kit
    mkdir -p "$folder"
    rm -f "$folder/made-of" "$folder/lib$name.a"
    copy_to "$copied" "${below[@]}"
    grep -v "^[ \t]*$name[ \t]*:" <<< "$lines" > "$copy/below/crates.txt"
    copy_to "$own" $name
    sources=$(made_of "$copied" "$own")
    prove
    archive=$(hash_of < "$folder/lib$name.a")
    printf 'crates %s\nlibrary %s\nkit %s\n' "$sources" "$archive" "$kit" > "$folder/made-of"
    if ! is_current; then
        echo 'library.sh: the crates were changed while they were proved; the next call proves them anew' >&2
        exit 1
    fi
}

take_lock
is_current || build
echo "$folder"
