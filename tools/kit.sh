# tools/kit.sh: what the scripts know of the Rattle kit. tools/build.sh and harness/archive.sh read it, at the top of the checkout.
# shellcheck shell=sh

# The kit's folder: the one of the page that `rt doc` names.
kit=$(rt doc)
kit=$(dirname "$kit")

# The libraries that a crate's line of crates.txt lists. That of korrigwen_c lists all that it reaches.
libraries_of() { # NAME
    sed -n "s/^$1\( *staticlib\)\{0,1\} *: *//p" crates.txt
}

# Proves a static library and writes its archive, with the words that `rt lib` uses, over the libraries as they lie in their crates'
# out/. Further words are rattle's (`rattle build --help`).
build_static() { # NAME ARCHIVE TOOLCHAIN WORDS...
    static=$1 to=$2 toolchain=$3
    shift 3
    for library in $(libraries_of "$static"); do
        set -- "$@" --extern "$library=../$library/out/rlib/$library.rlib" -L "dependency=../$library/out/rlib"
    done
    (cd "crates/$static" &&
        "$kit/bin/rattle" build --crate-name "$static" src/lib.rt --extern "std=$kit/rlibs/std.rlib" -L "dependency=$kit/rlibs" \
            --antt-project "$kit/rattle/logic/antt-project.json" --logic-built "$kit/logic_built" \
            --crate-type staticlib --backend llvm --toolchain "$toolchain" "$@" -o "$to")
}
