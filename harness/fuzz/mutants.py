#!/usr/bin/env python3
"""Measures what the fuzz target can see: python3 harness/fuzz/mutants.py [SECONDS]

Each comparison and each count by 1 in the library's own module (target/fuzz/marked.ll, which build.sh writes) is made
wrong in turn, by one at the edge; the target then has so many seconds (10) to notice. No wrong module is ever proved, so
this says nothing about the library; it says how much of a wrong one the target would find. Printed are the ones that it
did not find, and then `mutants: F of N found`. Run harness/fuzz/build.sh first.
"""
import pathlib
import re
import shutil
import subprocess
import sys

TOP = pathlib.Path(__file__).resolve().parents[2]
OUT = TOP / "target/fuzz"
WORK = OUT / "mutant"
OTHER = {"ult": "ule", "ule": "ult", "ugt": "uge", "uge": "ugt", "slt": "sle", "sle": "slt", "sgt": "sge",
         "sge": "sgt", "eq": "ne", "ne": "eq"}
COMPARISON = re.compile(r"(= icmp )(\w+)( )")
COUNT = re.compile(r"(= add (?:nuw |nsw )*i(?:32|64) %\w+, )(1)()$")


def toolchain():
    page = pathlib.Path(subprocess.run(["rt", "doc"], stdout=subprocess.PIPE, check=True, text=True).stdout.strip())
    return page.parent / "toolchain"


def mutants(lines):
    """The line number, the function and the wrong line, for each place."""
    function = ""
    for number, line in enumerate(lines):
        if line.startswith("define"):
            function = re.search(r'@"?([^"(]+)', line).group(1)
        for pattern, other in ((COMPARISON, OTHER.get), (COUNT, lambda one: "2")):
            if pattern.search(line):
                yield number, function, pattern.sub(lambda m: m.group(1) + other(m.group(2)) + m.group(3), line)


def build(tools, lines):
    module = WORK / "mutant.ll"
    module.write_text("\n".join(lines))
    subprocess.run([str(tools / "bin/clang"), "--target=x86_64-unknown-linux-gnu", "--sysroot=%s" % tools, "-x",
                    "ir", str(module), "-c", "-fPIC", "-O0", "-fsanitize=address", "-o", str(WORK / "mutant.o"),
                    "-fsanitize-coverage=inline-8bit-counters,pc-table,trace-cmp"], check=True)
    subprocess.run(["clang-14", "-fsanitize=fuzzer,address", str(OUT / "fuzz.o"), str(WORK / "mutant.o"), "-o",
                    str(WORK / "fuzz")], check=True)


def found(seconds):
    """Whether the seeds, the corpus or so many seconds of search break a promise. A hang counts as found."""
    inputs = [str(path) for folder in ("seeds", "corpus") for path in sorted((OUT / folder).glob("*"))]
    options = ["-timeout=5", "-artifact_prefix=%s/" % WORK, "-seed=1"]
    corpus = WORK / "corpus"  # libFuzzer keeps what it finds in the first folder that it is given
    shutil.rmtree(corpus, ignore_errors=True)
    corpus.mkdir()
    for words in (inputs, ["-max_total_time=%d" % seconds, "-max_len=4096", str(corpus), str(OUT / "seeds")]):
        with open(WORK / "log", "w") as log:
            done = subprocess.run([str(WORK / "fuzz")] + options + words, stdout=log, stderr=log)
        if done.returncode != 0:
            return True
    return False


def main():
    seconds = int(sys.argv[1]) if len(sys.argv) > 1 else 10
    WORK.mkdir(parents=True, exist_ok=True)
    tools = toolchain()
    lines = (OUT / "marked.ll").read_text().split("\n")
    count = seen = 0
    for number, function, wrong in mutants(lines):
        build(tools, lines[:number] + [wrong] + lines[number + 1:])
        count += 1
        if found(seconds):
            seen += 1
        else:
            print("mutants: not found: %s: %s -> %s" % (function, lines[number].strip(), wrong.strip()), flush=True)
    print("mutants: %d of %d found" % (seen, count))


if __name__ == "__main__":
    main()
