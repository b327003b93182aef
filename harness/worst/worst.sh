#!/bin/sh
# harness/worst/worst.sh: measures what calls, runs and the program can cost at worst, for docs/LIMITS.md. It takes some
# three minutes on an idle machine, and more where the slowest run has to be sampled.
# It needs cc, python3 and the kit, which is for x86-64. The library is the one of harness/archive.sh; the program is
# target/bin/korrigwen, built here where it is missing.
set -eu
here=$(cd "$(dirname "$0")" && pwd)
top=$(dirname "$(dirname "$here")")
out=$top/target/worst
program=$top/target/bin/korrigwen
archive=$top/target/here/libkorrigwen_c.a
jobs=$out/jobs
LIMIT=16777216
SAMPLE=20000   # steps by which the jobs are compared
LONG=120       # a run that would take more seconds than this is cut after MOST_TIME seconds' worth of steps
MOST_TIME=40
mkdir -p "$out"
"$top/tools/build.sh" korrigwen
"$top/harness/archive.sh"
PYTHONDONTWRITEBYTECODE=1 python3 "$here/make_jobs.py" "$jobs"
# Bound at once, or the loader's work at the first call of memcpy would count as the library's stack.
cc -std=c11 -O2 -Wall -Wextra -I"$top/include" "$here/worst.c" "$archive" -pthread -Wl,-z,now -o "$out/worst"

head_line() { printf '\n== %s\n' "$*"; }

ns_a_step() { sed 's/.* \([0-9]*\) ns a step.*/\1/'; }

# The job among some that takes most time a step, by a sample of its first steps.
slowest_of() { # PATTERN
    for job in "$jobs"/$1; do
        echo "$("$out/worst" run "$job" 1000 65536 "$SAMPLE" | ns_a_step) $job"
    done | sort -n | tee "$out/sorted" | tail -n 1 | cut -d' ' -f2
}

# A run to the step limit in calls of 1,000 steps, or a part of it where all would take too long.
whole_run() { # JOB
    ns=$("$out/worst" run "$1" 1000 65536 "$SAMPLE" | ns_a_step)
    steps=$LIMIT
    [ $((ns * LIMIT / 1000000000)) -le "$LONG" ] || steps=$((MOST_TIME * 1000000000 / ns))
    said=$("$out/worst" run "$1" 1000 65536 "$steps")
    echo "$(basename "$1"), $(wc -c <"$1") bytes: $said"
    ns=$(echo "$said" | ns_a_step)
    [ "$steps" -eq "$LIMIT" ] || echo "  worked out for $LIMIT steps: $((ns * LIMIT / 1000000000)) s"
    echo "  $("$out/worst" rows "$1" "$SAMPLE")"
}

seconds() { awk -v from="$1" -v to="$(date +%s.%N)" 'BEGIN { printf "%.1f", to - from }'; }

whole_output() { # JOB
    from=$(date +%s.%N)
    "$program" <"$1" >/dev/null
    took=$(seconds "$from")
    from=$(date +%s.%N)
    bytes=$("$program" <"$1" | wc -c)
    echo "$(basename "$1"), $(wc -c <"$1") bytes: $took s to /dev/null, $(seconds "$from") s through a pipe," \
        "$bytes bytes written"
}

# The program with a stack of so many KiB.
runs_with() { (ulimit -s "$1" && "$program" <"$top/examples/w.job" >"$out/small"); }

memory_and_stack() {
    head_line "the program's memory and stack"
    if [ -x /usr/bin/time ]; then
        /usr/bin/time -f '%M KiB resident at most' "$program" <"$jobs/most-records.job" 2>&1 >/dev/null
    fi
    kib=256
    until runs_with "$kib" 2>"$out/killed"; do kib=$((kib + 4)); done
    echo "it runs with a stack of $kib KiB and not with $((kib - 4))"
}

head_line "machine"
LC_ALL=C lscpu | grep -E '^(Architecture|CPU\(s\)|Model name):'
echo "load: $(cut -d' ' -f1-3 /proc/loadavg)"
head_line "single calls"
for name in eight-4columns eight-16columns eight-rows; do
    echo "$name:"
    "$out/worst" calls "$jobs/$name.job"
done
head_line "the longest single step (step-COLUMNS: rows that differ in the last column alone)"
for job in "$jobs"/step-*.job; do
    echo "$(basename "$job"): $("$out/worst" step "$job")"
done
head_line "most rows, one key"
whole_run "$jobs/scan-0-2tables.job"
whole_run "$(slowest_of 'scan-0-?tables.job')"
head_line "most time, any keys"
worst_job=$(slowest_of 'scan-*.job')
sed "s|$jobs/||; s/ / ns a step: /" "$out/sorted"
whole_run "$worst_job"
head_line "the program's output"
for name in product most-records output; do
    whole_output "$jobs/$name.job"
done
head_line "the library's memory: no data, no bss"
size "$archive"
head_line "stack of the library's functions"
"$out/worst" stack "$jobs/eight-16columns.job"
memory_and_stack
