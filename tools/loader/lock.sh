# shellcheck shell=bash
# Sourced by what builds into target/: take_lock holds the one lock of the repository in $repo until the script ends. It is on the folder
# itself, which stays where it is whatever is removed in it, and goes down to scripts that this one calls.
take_lock() {
    # shellcheck disable=SC2154 # the repository of who sources this
    [ /dev/fd/9 -ef "$repo" ] || exec 9< "$repo"
    flock -w 1 9 && return
    if [ -t 2 ]; then echo 'vexil-compat: the library is being built by another call, and this one waits for it' >&2; fi
    flock 9
}
