#!/bin/sh
# harness/fuzz/run.sh MINUTES: builds the fuzz target and runs it so long, on one core; then hands everything that it kept
# to the archive as it is shipped. Inputs that reached something new are kept in target/fuzz/corpus, from which the next
# run goes on. Exit 1 where a promise is broken: the input is then target/fuzz/crash-..., and target/fuzz/fuzz with that
# file as its argument shows it again. Exit 3 where a signal from outside ended the target, which says nothing about the
# library.
set -eu
if [ $# -ne 1 ]; then
    echo "usage: harness/fuzz/run.sh MINUTES" >&2
    exit 2
fi
here=$(cd "$(dirname "$0")" && pwd)
out=$(dirname "$(dirname "$here")")/target/fuzz

# Exits with 3 if a target's status is that of one which was interrupted: 72 is libFuzzer's own, for signals that it
# catches; the others are the shell's, for SIGHUP, SIGINT, SIGKILL and SIGTERM.
unless_interrupted() { # STATUS
    case $1 in
    72 | 129 | 130 | 137 | 143)
        echo "fuzz: interrupted by a signal; no promise was seen broken" >&2
        exit 3
        ;;
    esac
}

# Hands inputs to a target once, as they are.
hand() { # TARGET INPUTS...
    target=$1
    shift
    status=0
    "$out/$target" -artifact_prefix="$out/" "$@" >"$out/$target-inputs.log" 2>&1 || status=$?
    unless_interrupted "$status"
    [ "$status" -eq 0 ] || { tail -n 40 "$out/$target-inputs.log"; exit 1; }
    echo "fuzz: $# inputs handed to $target"
}

"$here/build.sh"
mkdir -p "$out/corpus"
# The seeds as they are first: libFuzzer cuts those that are longer than the inputs that it makes.
hand fuzz "$out"/seeds/*
status=0
"$out/fuzz" -max_total_time=$(($1 * 60)) -max_len=4096 -timeout=10 -print_final_stats=1 -artifact_prefix="$out/" \
    "$out/corpus" "$out/seeds" >"$out/fuzz.log" 2>&1 || status=$?
grep -E 'Loaded .* modules|INITED|DONE|broken promise|ERROR|stat::|Done' "$out/fuzz.log" | tail -n 20
unless_interrupted "$status"
[ "$status" -eq 0 ] || exit 1
hand shipped "$out"/seeds/* "$out"/corpus/*
