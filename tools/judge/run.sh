#!/usr/bin/env bash
# Holds the library, the oracle and the second judge against each other on COUNT random pairs of SEED, of all formats and kinds, by every
# verdict, for SECONDS (3600) at most, in PROCESSES (1) at once with seeds of their own. The last line is `N passed, M failed`.
#
#   tools/judge/run.sh SEED COUNT [SECONDS [PROCESSES]]
#
# A difference stops it; target/judge/SEED/old.img and new.img then hold the pair.
set -euo pipefail
here=$(cd "$(dirname "${BASH_SOURCE[0]}")" && pwd)
repo=$(cd "$here/../.." && pwd)
if [ $# -lt 2 ] || [ $# -gt 4 ]; then
    echo 'usage: tools/judge/run.sh SEED COUNT [SECONDS [PROCESSES]]' >&2
    exit 2
fi
seconds=${3:-3600}
processes=${4:-1}
sh "$here/build.sh"
library=$(bash "$repo/tools/loader/library.sh")
bash "$repo/tools/oracle/build.sh" --with-library "$library" --with-judge "$repo/target/judge"
# What an earlier run said counts for nothing.
rm -f "$repo/target/judge"/*.log
for ((process = 0; process < processes; process++)); do
    seed=$(($1 + process))
    "$repo/target/oracle/oracle-second" second $seed $(($2 / processes)) "$seconds" "$repo/target/judge/$seed" > "$repo/target/judge/$seed.log" &
done
wait
cat "$repo/target/judge"/*.log
awk '/^[0-9]+ passed, [0-9]+ failed$/ { passed += $1; failed += $3; ended++ }
    END { failed += processes - ended; print passed " passed, " failed " failed"; exit failed > 0 }' processes="$processes" "$repo/target/judge"/*.log
