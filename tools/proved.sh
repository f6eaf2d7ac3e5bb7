# shellcheck shell=bash
# Sourced by what needs crates of the repository $repo proved. `rt ci` proves them from nothing, side by side, in a copy in the user's cache, so
# that what is built is what was proved, whatever is edited meanwhile. Where it may, it keeps on the machine what it has proved, so that the
# tests and the loading tool prove the same crates once.

# Where the copy of a crate and of all that it is made of stands.
copy_of() { # CRATE
    # shellcheck disable=SC2154 # the repository of who sources this
    echo "${XDG_CACHE_HOME:-${HOME:-/tmp}/.cache}/vexil_compat/$(printf %s "$repo" | sha256sum | cut -c1-16)/$1"
}

# The lines of crates.txt of a crate and of all that it is made of, as they are: `rt` takes another space for another crate.
lines_of() { # CRATE
    awk -v name="$1" '
        { line = $0; sub(/#.*/, "") }
        /:/ { crate = $0; sub(/:.*/, "", crate); gsub(/[ \t]/, "", crate); sub(/^[^:]*:/, ""); below[crate] = $0; lines[crate] = line; order[NR] = crate }
        END {
            todo[left = 1] = name
            while (left > 0) {
                crate = todo[left--]
                if (!(crate in below) || (crate in seen)) continue
                seen[crate] = 1
                for (i = split(below[crate], deps, " "); i > 0; i--) todo[++left] = deps[i]
            }
            for (i = 1; i <= NR; i++) if (order[i] in seen) print lines[order[i]]
        }' "$repo/crates.txt"
}

# The crates of such lines.
names_in() { # LINES
    cut -d: -f1 <<< "$1" | tr -d ' \t'
}

# The files that crates are made of, with their names and sums.
sums_in() { # FOLDER CRATE..
    local crate
    cd "$1"
    for crate in "${@:2}"; do
        find -L "$crate" -mindepth 1 -maxdepth 1 ! -name must-fail ! -name out -exec find -L {} -type f -print0 \;
    done | LC_ALL=C sort -z | xargs -0 sha256sum
}

# Copies crates to a folder, without what is built of them and what must fail.
copy_to() { # FOLDER CRATE..
    local crate
    rm -rf "$1"
    for crate in "${@:2}"; do
        mkdir -p "$1/$crate"
        find -L "$repo/crates/$crate" -mindepth 1 -maxdepth 1 ! -name out ! -name must-fail -exec cp -rL -t "$1/$crate" {} +
    done
}
