#!/usr/bin/env bash
# Builds the loading tool, target/loader/loader, with the library of library.sh, whose folder target/loader/library tells. A program that is
# there already, made of the same bytes, stays; one call builds at a time.
#
#   tools/loader/build.sh         the loading tool
#   tools/loader/build.sh words   only target/loader/words, which needs no library: it says whether the words of a call are well used
set -euo pipefail
unset CDPATH
here=$(cd "$(dirname "${BASH_SOURCE[0]}")" && pwd)
repo=$(cd "$here/../.." && pwd)
# shellcheck source=tools/loader/lock.sh
. "$here/lock.sh"
out=$repo/target/loader

# What a program is compiled of, and how.
parts_of() { # OPTION FILE..
    printf '%s\n' "$@" | sha256sum
    cat "${@:2}" "$here"/*.h "$repo/include/vexil_compat.h" "$here/build.sh" | sha256sum
}

# The same, and the program itself.
made_of() { # PROGRAM OPTION FILE..
    parts_of "${@:2}"
    sha256sum < "$out/$1"
}

is_current() { # PROGRAM OPTION FILE..
    [ -x "$out/$1" ] && [ "$(cat "$out/$1.made-of" 2> /dev/null)" = "$(made_of "$@")" ]
}

# Compiles a program and puts it in its place at once, so that a call beside this one finds a whole program. A build that fails, or during
# which a file is changed, leaves no older program behind.
compile() { # PROGRAM OPTION FILE..
    local program=$out/$1 before
    if ! command -v gcc > /dev/null; then
        echo 'build.sh: there is no gcc, which compiles the loading tool' >&2
        exit 1
    fi
    before=$(parts_of "${@:2}")
    if ! gcc -std=c11 -Wall -Wextra -Wpedantic -Wconversion -Werror -O2 -I "$repo/include" -o "$program.new" "${@:2}"; then
        rm -f "$program.new" "$program" "$program.made-of"
        exit 1
    fi
    if [ "$before" != "$(parts_of "${@:2}")" ]; then
        rm -f "$program.new" "$program" "$program.made-of"
        echo 'build.sh: a file was changed while it was compiled; the next call compiles it anew' >&2
        exit 1
    fi
    rm -f "$program.made-of"
    mv "$program.new" "$program"
    made_of "$@" > "$program.made-of"
    echo "built $program"
}

mkdir -p "$out"
if [ "${1-}" = words ]; then
    program=(words -DTOOLCHAIN=VEXIL_COMPAT_KIT "$here"/{words,options,status}.c)
    # Who asks for help does not wait for a library that another call proves.
    if ! is_current "${program[@]}"; then
        take_lock
        compile "${program[@]}"
    fi
    exit
fi
take_lock
library=$(bash "$here/library.sh")
kit=$(sed -n 's/^kit //p' "$library/made-of" 2> /dev/null || true)
program=(loader "-DTOOLCHAIN=\"${kit:-unknown}\"" "$here"/{loader,options,verdicts,status,files,refusals,faults,cursor,bodies}.c "$library/libvexil_compat.a")
if ! is_current "${program[@]}"; then
    compile "${program[@]}"
fi
if [ "$(cat "$out/library" 2> /dev/null)" != "$library" ]; then
    echo "$library" > "$out/library"
fi
