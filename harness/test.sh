#!/usr/bin/env bash
# harness/test.sh: the tests that need more than the kit. They use what `rt ci` left: the programs, and the proved libraries from which
# tools/build.sh makes the archive. What is not there it builds, proofs first. The kit is for x86-64, and so are these tests; on another
# processor two of them can be run over an archive that harness/archive.sh made elsewhere (README.md here). Exit 1 at the first test
# that fails.
set -euo pipefail
cd "$(dirname "$0")/.."

# A command that is missing is installed from Debian's packages.
need() { # COMMAND PACKAGE
    command -v "$1" >/dev/null || { apt-get update && apt-get install -y "$2"; }
}
need cargo cargo
need cc gcc
need python3 python3

tools/build.sh korrigwen read_cases run_cases korrigwen_c
cd harness
cargo test --quiet --release -p korrigwen-harness -p korrigwen
cargo run --quiet --release --bin differential
cargo run --quiet --release --bin differential -- --through programs --jobs 5000
../examples/test.sh
