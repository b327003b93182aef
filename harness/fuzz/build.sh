#!/bin/sh
# harness/fuzz/build.sh: builds target/fuzz/fuzz, the fuzz target over the proved crate korrigwen_c, and
# target/fuzz/shipped, the same over the optimised archive, target/staticlib/libkorrigwen_c.a as it is.
#
# The library's LLVM module is the one that the archive is compiled from, as harness/archive.sh keeps it. The kit's clang
# compiles it once more: not optimised, so that each branch of the source is one of its own; with a counter on each for
# libFuzzer; and with AddressSanitizer, for which each function needs a mark.
#
# It needs the kit, and clang 14 with its runtime libraries (Debian: clang-14, libclang-rt-14-dev).
set -eu
here=$(cd "$(dirname "$0")" && pwd)
top=$(dirname "$(dirname "$here")")
out=$top/target/fuzz
kit=$(rt doc)
tools=$(dirname "$kit")/toolchain
archive=$top/target/staticlib/libkorrigwen_c.a

instrument() {
    sed '/ "probe-stack"/s/^\(attributes #[0-9]* = { nounwind\) /\1 sanitize_address /' \
        "$top/target/here/module.ll" >"$out/marked.ll"
    if cmp -s "$top/target/here/module.ll" "$out/marked.ll"; then
        echo "fuzz: no function was marked for AddressSanitizer: the module looks otherwise than it did" >&2
        exit 1
    fi
    "$tools/bin/clang" --target=x86_64-unknown-linux-gnu --sysroot="$tools" -x ir "$out/marked.ll" \
        -c -fPIC -O0 -fsanitize=address -fsanitize-coverage=inline-8bit-counters,pc-table,trace-cmp \
        -o "$out/korrigwen_c.o"
}

mkdir -p "$out"
"$top/tools/build.sh" korrigwen_c
"$top/harness/archive.sh"
instrument
# The target's own code has no counters: what is searched for is new paths in the library.
clang-14 -std=c11 -g -O1 -Wall -Wextra -Werror -fsanitize=address -I"$top/include" -c "$here/fuzz.c" -o "$out/fuzz.o"
clang-14 -fsanitize=fuzzer,address "$out/fuzz.o" "$out/korrigwen_c.o" -o "$out/fuzz"
clang-14 -fsanitize=fuzzer,address "$out/fuzz.o" "$archive" -o "$out/shipped"
PYTHONDONTWRITEBYTECODE=1 python3 "$here/make_seeds.py" "$out/seeds"
