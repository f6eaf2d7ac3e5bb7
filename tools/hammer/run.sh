#!/usr/bin/env bash
# Hammers the library: the recorded pairs, then COUNT random ones of SEED and of all formats, against the oracle in one process, for
# SECONDS (60) at most, by the verdict of 01, the one with imports and the mended one; and the contents of each image. With every fourth
# random pair go three more: one without repeats whose images have a copy that is filed anew (R-13), so that all four pairs of image and copy
# must get the answer of the first, one made for imports (R-2), and one made for the mended verdict (R-5, R-6, R-10), mostly of format 3.
# With --refiled, --imports or --mended only COUNT of these are run.
#
#   tools/hammer/run.sh [--refiled | --imports | --mended] SEED COUNT [SECONDS]
#
# A difference, a fault or a call without end stops it; target/hammer/old.img and new.img then hold the pair, original-old.img and
# original-new.img that of which it is a copy, or the same. The last line is `N passed, M failed`. Without the Vexil sources it is the
# oracle's model alone, and says so.
set -euo pipefail
here=$(cd "$(dirname "${BASH_SOURCE[0]}")" && pwd)
repo=$(cd "$here/../.." && pwd)
folder=$repo/target/hammer
what=$repo/crates/replay/data/answers.bin
case ${1-} in
--refiled | --imports | --mended)
    what=$1
    shift
    ;;
esac
if [ $# -lt 2 ] || [ $# -gt 3 ]; then
    echo 'usage: tools/hammer/run.sh [--refiled | --imports | --mended] SEED COUNT [SECONDS]' >&2
    exit 2
fi
seconds=${3:-60}
case $1$2$seconds in
*[!0-9]*)
    echo 'usage: tools/hammer/run.sh [--refiled | --imports | --mended] SEED COUNT [SECONDS], all numbers' >&2
    exit 2
    ;;
esac

library=$(bash "$repo/tools/loader/library.sh")
bash "$repo/tools/oracle/build.sh" --with-library "$library" ||
    bash "$repo/tools/oracle/build.sh" --without-vexil --with-library "$library"

status=0
timeout "$((seconds + 30))" "$repo/target/oracle/oracle-library" hammer "$what" "$1" "$2" "$seconds" "$folder" || status=$?
if [ "$status" -gt 1 ]; then
    echo "exit status $status in a call on $folder/old.img $folder/new.img"
    echo '0 passed, 1 failed'
    status=1
fi
exit "$status"
