#!/usr/bin/env bash
# Proves the small program, crate `program`, and puts it under its name: target/bin/vexil_compat.
set -euo pipefail
repo=$(cd "$(dirname "${BASH_SOURCE[0]}")/../.." && pwd)
# shellcheck source=tools/proved.sh
. "$repo/tools/proved.sh"
bin=$repo/target/bin
copy=$(copy_of program)

# A build that fails leaves no older program behind.
rm -f "$bin/vexil_compat"
lines=$(lines_of program)
mapfile -t crates < <(names_in "$lines")
copy_to "$copy/crates" "${crates[@]}"
echo "$lines" > "$copy/crates.txt"
(cd "$copy" && rt ci)
mkdir -p "$bin"
cp "$copy/crates/program/out/program" "$bin/vexil_compat"
echo "built $bin/vexil_compat"
