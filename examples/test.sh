#!/bin/sh
# examples/test.sh: builds the C and the Python example, runs them on the jobs here and on those of make_cases.py, and
# compares what they print with what the program prints. Last line: `examples: N passed`; exit 1 where one differs.
# It needs cc, python3, target/bin/korrigwen and target/staticlib/libkorrigwen_c.a (`tools/build.sh korrigwen korrigwen_c`),
# and so an x86-64 machine.
set -eu
here=$(cd "$(dirname "$0")" && pwd)
top=$(dirname "$here")
work=$(mktemp -d)
trap 'rm -rf "$work"' EXIT
export PYTHONDONTWRITEBYTECODE=1 # no folder of Python's beside the examples
passed=0
failed=0

# ./korrigwen builds the program anew where it is older than its source; without rt it is started as it is.
program() {
    if command -v rt >"$work/rt"; then "$top/korrigwen" "$1"; else "$top/target/bin/korrigwen" <"$1"; fi
}

# Compares two files of output.
same() { # WHAT EXPECTED GOT
    if cmp -s "$2" "$3"; then
        passed=$((passed + 1))
    else
        failed=$((failed + 1))
        echo "examples: $1 differs:"
        diff "$2" "$3" | head -n 10 || true
    fi
}

# A job whose name says how it is refused has to be refused so, and nothing else may be printed.
said_so() { # JOB PRINTED
    name=$(basename "$1")
    case $name in refused-*) ;; *) return 0 ;; esac
    echo "$name" | sed 's/^refused-\([0-9]*\)-\([0-9]*\)-.*/refused \1 at \2/' >"$work/named"
    same "$name, by its name" "$work/named" "$2"
}

try() { # JOB
    program "$1" >"$work/expected"
    said_so "$1" "$work/expected"
    "$work/join" "$1" >"$work/c" || true
    same "join.c on $(basename "$1")" "$work/expected" "$work/c"
    python3 "$here/python/join.py" "$1" >"$work/python" || true
    same "join.py on $(basename "$1")" "$work/expected" "$work/python"
}

archive=$top/target/staticlib/libkorrigwen_c.a
cc -std=c11 -O2 -Wall -Wextra -Werror -I"$top/include" "$here/c/join.c" "$archive" -o "$work/join"
python3 "$here/make_households.py" "$work/households.job"
same "households.job and what make_households.py writes" "$here/households.job" "$work/households.job"
python3 "$here/make_cases.py" "$work/cases"
for job in "$here"/*.job "$work"/cases/*.job; do
    try "$job"
done
[ "$failed" -eq 0 ] || { echo "examples: $failed failed"; exit 1; }
echo "examples: $passed passed"
