#!/bin/sh
# tools/build.sh NAME..: proves and builds these crates, and puts what they make where README and the tests take it from: a program at
# target/bin/NAME, the static library at target/staticlib/libNAME.a. What is newer than every source stays. What rt said stands in
# target/build.log; exit 1 and some of it where a crate is not proved.
#
# rt itself writes both into crates/NAME/out/, but `rt ci` takes the archive away from there. It leaves the programs that it built and
# ran, and these are taken as they are, so that nothing is proved twice after `rt ci`.
set -eu
cd "$(dirname "$0")/.."

# Whether nothing that a proof reads was changed after this file or folder was made. Folders count: in them shows what is gone.
is_newest() { # PATH
    [ -e "$1" ] && [ -z "$(find crates.txt crates/*/src crates/*/specs crates/*/proofs -newer "$1" | head -n 1)" ]
}

in_crate() { # NAME COMMAND...
    (cd "crates/$1" && shift && "$@")
}

# Runs a command of the kit's and shows its verdict, or the end of what it said, but for the lines that count modules.
logged() { # COMMAND...
    echo "building, once: the proofs are checked first" >&2
    "$@" >target/build.log 2>&1 </dev/null || {
        grep -vE '^(statements|library|crate|logic) ' target/build.log | tail -n 20 >&2
        exit 1
    }
    grep '^logic=' target/build.log | tail -n 1
}

# Puts a file in its place, in one step, as old as the start of this script: an edit that came since then is seen the next time.
put() { # FROM TO
    mkdir -p "$(dirname "$2")"
    cp "$1" "$2.new"
    touch -r target/began "$2.new"
    mv -f "$2.new" "$2"
    echo "build: $2"
}

# `rt run` builds the program and runs it, here on no input.
program() { # NAME
    is_newest "crates/$1/out/$1" || logged in_crate "$1" rt run
    put "crates/$1/out/$1" "target/bin/$1"
}

# Whether the libraries in out/ are those that `rt ci` has just proved. It leaves them with no stamp, where none lay there before, and
# `rt lib` would then prove each of them again. With a stamp `rt lib` finds out for itself which of them are still good.
left_by_ci() { # NAME
    for library in $(libraries_of "$1"); do
        [ ! -e "crates/$library/out/rlib/stamp" ] && is_newest "crates/$library/out/rlib/$library.rlib" || return
    done
}

archive() { # NAME
    . tools/kit.sh
    if is_newest "crates/$1/out/lib$1.a"; then
        :
    elif left_by_ci "$1"; then
        mkdir -p "crates/$1/out"
        logged build_static "$1" "out/lib$1.a" "$kit/toolchain" --jobs 2
    else
        logged in_crate "$1" rt lib
    fi
    put "crates/$1/out/lib$1.a" "target/staticlib/lib$1.a"
}

for name in "$@"; do
    made=archive built=target/staticlib/lib$name.a
    [ ! -f "crates/$name/src/main.rt" ] || made=program built=target/bin/$name
    is_newest "$built" && continue
    mkdir -p target
    touch target/began
    "$made" "$name"
done
