#!/usr/bin/env bash
# Builds the oracle into target/oracle/oracle of this repository.
#
#   tools/oracle/build.sh                     with the real `check`
#   tools/oracle/build.sh --without-vexil     without it: the reader and the model only
#   tools/oracle/build.sh --with-library DIR  target/oracle/oracle-library instead, which DIR/libvexil_compat.a is linked into;
#                                             with or without the real `check`
#   tools/oracle/build.sh --with-library DIR --with-judge DIR
#                                             target/oracle/oracle-second instead, with the libjudge.a of tools/judge, too
#
# The Vexil sources come from $VEXIL_SRC, or else from ../shared/docs/src beside
# this repository. They are copied below target/, held against the committed
# sums in vexil.sha256 and compiled as they are.
set -euo pipefail

here=$(cd "$(dirname "${BASH_SOURCE[0]}")" && pwd)
repo=$(cd "$here/../.." && pwd)
out=$repo/target/oracle
name=oracle
cfg=(--cfg vexil)
library=()

while [ $# -gt 0 ]; do
  case $1 in
    --without-vexil) cfg=() ;;
    --with-library)
      if [ ! -f "${2-}/libvexil_compat.a" ]; then
        echo "build.sh: --with-library: no libvexil_compat.a in '${2-}'" >&2
        exit 2
      fi
      name=oracle-library
      library=(--cfg library -L "native=$2" -l static=vexil_compat)
      shift ;;
    --with-judge)
      name=oracle-second
      library+=(--cfg second -L "native=${2-}" -l static=judge -l stdc++)
      shift ;;
    *) echo "build.sh: unknown word: $1" >&2; exit 2 ;;
  esac
  shift
done

mkdir -p "$out"
# A build that fails leaves no older oracle behind.
rm -f "$out/$name"

if [ ${#cfg[@]} -gt 0 ]; then
  src=${VEXIL_SRC:-$repo/../shared/docs/src}/crates/vexil-lang/src
  if [ ! -f "$src/compat.rs" ]; then
    echo "build.sh: no Vexil sources at $src (set VEXIL_SRC, or build with --without-vexil)" >&2
    exit 1
  fi
  mkdir -p "$out/src/ast" "$out/src/ir"
  for file in compat.rs ir/mod.rs ir/types.rs ast/mod.rs span.rs; do
    cp -f "$src/$file" "$out/src/$file"
  done
  if ! (cd "$out/src" && sha256sum --check --strict --quiet "$here/vexil.sha256"); then
    echo "build.sh: the Vexil sources at $src are not those of tools/oracle/vexil.sha256" >&2
    exit 1
  fi
  # ast/mod.rs looks for its module `visit` in its own folder.
  cp -f "$here/stand_ins/visit.rs" "$out/src/ast/visit.rs"
fi

rust=(rustc --edition 2021 -O -D warnings)
"${rust[@]}" --crate-type rlib --crate-name smol_str --out-dir "$out" "$here/stand_ins/smol_str.rs"
# The selftest reads the samples, README.md and docs/FORMAT.md.
export VEXIL_COMPAT_ROOT=$repo
"${rust[@]}" --check-cfg 'cfg(vexil, library, second)' "${cfg[@]}" "${library[@]}" --crate-name oracle \
  --extern "smol_str=$out/libsmol_str.rlib" -o "$out/$name" "$here/src/main.rs"
echo "built $out/$name${cfg[0]:+ with the real check}"
