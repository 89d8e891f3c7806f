#!/bin/sh
# fuzz.sh FLAGS LIBRARY - a minute (FUZZ_SECONDS) of clang's coverage-guided fuzzer over whole runs of the program, with
# the address and undefined-behaviour sanitizers, from the examples as seeds. `make fuzz` calls it from the root.
set -eu
tmp=$(mktemp -d)
trap 'rm -rf "$tmp"' EXIT
. shell/tests/lib.sh
need gringo clasp clang

mkdir -p build "$tmp/seeds" "$tmp/found"
parts=$(ls shell/*.c | grep -v shell/gambrolt.c)
# shellcheck disable=SC2086
clang $1 -g -O1 -fsanitize=fuzzer,address,undefined -fno-sanitize-recover=all shell/tests/fuzz.c $parts "$2" -o build/fuzz
for example in examples/*.lp examples/ordinary/*.lp; do
    ground "$example" >"$tmp/seeds/$(basename "$example").aspif"
done
cp examples/*.txt "$tmp/seeds"
printf 'a;b.\nc:-a,b,not d.\nd:-d,not c.\n:-not c.\n' >"$tmp/seeds/rules"
find "$tmp/seeds" -size +8k -exec rm {} +
printf '"asp 1 0 0\\x0a"\n"1 0 1 1 0 0\\x0a"\n"1 0 0 0 2 -"\n"4 1 a 1 1\\x0a"\n"2 0 1 "\n"1 1 1 1 0 0\\x0a"\n"1 0 1 1 1 2 2 2 1 -3 1\\x0a"\n"5 1 0\\x0a"\n"9 5 1 0 0\\x0a"\n" incremental"\n"steps="\n"step="\n"head="\n"pos="\n"neg="\n"0\\x0a"\n' >"$tmp/words"
build/fuzz -max_total_time="${FUZZ_SECONDS:-60}" -max_len=8192 -timeout=10 -rss_limit_mb=2048 -print_final_stats=1 \
    -dict="$tmp/words" -artifact_prefix=build/fuzz- "$tmp/found" "$tmp/seeds" >"$tmp/log" 2>&1 ||
    { tail -60 "$tmp/log"; echo "fuzz: a run failed; its input is in build/fuzz-*" >&2; exit 1; }
grep -E 'number_of_executed_units|new_units_added' "$tmp/log"
grep 'cov:' "$tmp/log" | tail -1
echo "fuzz: ${FUZZ_SECONDS:-60} seconds without a fault"
