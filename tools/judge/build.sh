#!/bin/sh
# Builds libjudge.a and the self test into the repository's target/judge, and
# runs the test. With `--check` the test is also run under the sanitizers.
set -eu
here=$(cd "$(dirname "$0")" && pwd)
out="$here/../../target/judge"
flags="-std=c++17 -O2 -Wall -Wextra -Werror"
library="image body types survivors reach report tombstones clauses write refile renumbering refiled judge"
tests="judge_test test_images test_clauses test_imports test_mended test_filing test_random"

mkdir -p "$out"
objects=""
sources=""
for name in $library $tests; do
    sources="$sources $here/$name.cpp"
    case " $tests " in
    *" $name "*) test_objects="${test_objects-} $out/$name.o" ;;
    *) objects="$objects $out/$name.o" ;;
    esac
done
printf '%s\n' $sources | xargs -P "$(nproc)" -I SOURCE sh -c 'g++ '"$flags"' -c SOURCE -o "'"$out"'/$(basename SOURCE .cpp).o"'
rm -f "$out/libjudge.a"
ar rcs "$out/libjudge.a" $objects

g++ $test_objects "$out/libjudge.a" -o "$out/judge_test"
"$out/judge_test"

if [ "${1:-}" = "--check" ]; then
    g++ -std=c++17 -O1 -g -Wall -Wextra -Werror -fsanitize=address,undefined \
        -fno-sanitize-recover=all $sources -o "$out/judge_test_checked"
    "$out/judge_test_checked"
fi
