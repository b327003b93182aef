#!/bin/sh
# harness/fuzz/faults.sh: puts each deliberate fault of faults.c between the fuzz target and the library, and sees that it
# is found within three minutes, from one input, examples/w.job with its run in pieces. Last line: `faults: N found`; exit 1
# where one is not. Run harness/fuzz/build.sh first.
set -eu
here=$(cd "$(dirname "$0")" && pwd)
top=$(dirname "$(dirname "$here")")
out=$top/target/fuzz
wraps=
for name in read begin run join_values; do
    wraps="$wraps -Wl,--wrap=korrigwen_$name"
done
found=0
missed=0
for fault in 1 2 3 4 5 6 7 8 9 10 11; do
    work=$out/fault-$fault
    rm -rf "$work"
    mkdir -p "$work/corpus"
    cp "$out/seeds/w-pieces" "$work/corpus"
    clang-14 -std=c11 -O1 -Wall -Wextra -fsanitize=address -DFAULT="$fault" -I"$top/include" -c "$here/faults.c" \
        -o "$work/faults.o"
    # shellcheck disable=SC2086
    clang-14 -fsanitize=fuzzer,address $wraps "$out/fuzz.o" "$work/faults.o" "$out/korrigwen_c.o" -o "$work/fuzz"
    from=$(date +%s)
    if "$work/fuzz" -seed=1 -max_total_time=180 -max_len=4096 -artifact_prefix="$work/" "$work/corpus" \
        >"$work/log" 2>&1; then
        missed=$((missed + 1))
        echo "faults: $fault NOT FOUND in 180 seconds"
    else
        found=$((found + 1))
        words=$(grep -m 1 -E 'broken promise|ERROR: AddressSanitizer' "$work/log" |
            sed 's/ on address.*//; s/^==[0-9]*==//')
        echo "faults: $fault found after $(($(date +%s) - from)) s, by an input of $(cat "$work"/crash-* | wc -c) bytes:" \
            "$words"
    fi
done
[ "$missed" -eq 0 ] || exit 1
echo "faults: $found found"
