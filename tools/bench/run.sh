#!/usr/bin/env bash
# Times the proved code against the Rust, both in one process and on the same bytes. It proves first what it links.
#
#   tools/bench/run.sh reader   the reader of images against the oracle's, on the accepted recorded images of 32,768 bytes
#   tools/bench/run.sh verdict  the library's verdict against `check`, on the recorded pairs and on generated ones, and the one with imports
#                               and the mended one against it, the mended one on the pairs in format 2
#   tools/bench/run.sh          both
set -euo pipefail
here=$(cd "$(dirname "${BASH_SOURCE[0]}")" && pwd)
repo=$(cd "$here/../.." && pwd)
answers=$repo/crates/replay/data/answers.bin

# The crates `image` and `reader` are proved in a temporary folder, below a crate that exports the reader.
reader() (
    work=$(mktemp -d)
    trap 'rm -rf "$work"' EXIT
    mkdir -p "$work/crates/exports/src"
    cp -r "$repo/crates/image" "$repo/crates/reader" "$work/crates/"
    rm -rf "$work"/crates/*/out
    printf 'image:\nreader: image\nexports staticlib: image reader\n' > "$work/crates.txt"
    cat > "$work/crates/exports/src/lib.rt" <<'RATTLE'
// The reader of images for a caller in another language.

// 0 for an image that is accepted, else its refusal.
#[unsafe(no_mangle)]
pub extern "C" fn read_image_number(bytes: &[u8]) -> u8 {
    match reader::read_image(bytes) {
        Ok(()) => 0,
        Err(refusal) => refusal.number(),
    }
}
RATTLE
    (cd "$work/crates/exports" && rt lib > "$work/log" 2>&1) || { tail -20 "$work/log"; exit 1; }
    rustc --edition 2021 -O -D warnings -A dead_code -o "$work/bench" "$here/reader.rs" \
        -L "native=$work/crates/exports/out" -l static=exports
    "$work/bench" "$answers"
)

verdict() {
    library=$(bash "$repo/tools/loader/library.sh")
    bash "$repo/tools/oracle/build.sh" --with-library "$library" >&2
    "$repo/target/oracle/oracle-library" bench "$answers"
}

case "${1-both}" in
    reader | verdict) "$1" ;;
    both) reader; verdict ;;
    *) echo 'usage: tools/bench/run.sh [reader | verdict]' >&2; exit 2 ;;
esac
