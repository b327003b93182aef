#!/bin/sh
# harness/archive.sh: writes target/here/libkorrigwen_c.a, the library's archive for x86-64 with functions and loops at multiples of 64
# bytes; target/here/module.ll, the LLVM module that it is compiled from; and target/here/about.txt, a line that says how.
#
# `rt lib` compiles the same module. The kit's rattle hands it to the clang of a toolchain folder, and ours keeps a copy of it and adds
# the words about multiples of 64 bytes to those that rattle gives. Without them the linker's choice of a place decides whether a short
# loop lies across such a multiple, which made searching up to 1.7 times as slow. But for this the code is that of `rt lib`.
#
# harness/archive.sh aarch64 writes the same into target/aarch64/, for a machine with that processor: rattle checks and lowers the
# library for it too. The kit runs on x86-64 alone and has no emulator any more, so that archive has to be carried to such a machine,
# and no test here runs it.
set -eu
cd "$(dirname "$0")/.."
machine=${1:-x86_64}
case $machine in
x86_64) out=$PWD/target/here from="the module that the archive of \`rt lib\` is compiled from" ;;
aarch64) out=$PWD/target/aarch64 from="the module that rattle makes of the library for it" ;;
*)
    echo "usage: harness/archive.sh [x86_64 | aarch64]" >&2
    exit 2
    ;;
esac
. tools/kit.sh
target=$machine-unknown-linux-gnu
tools=$kit/toolchain

# A command whose output is shown where it fails, but for the lines that count modules.
quietly() { # LOG COMMAND...
    log=$1
    shift
    "$@" >"$log" 2>&1 || {
        grep -vE '^(statements|library|crate|logic) ' "$log" | tail -n 20 >&2
        exit 1
    }
}

# A toolchain whose clang keeps the module, outside the checkout, since `rt ci` refuses links in there. clang leaves some loops where
# they are. With each function at a multiple of 64, which the last option gives as a power of 2, those are at least in the same place
# of their line in every program.
wrap_toolchain() {
    mkdir "$wrapped/bin"
    ln -s "$tools/lib" "$wrapped/lib"
    ln -s "$tools/bin/llvm-ar" "$tools/bin/ld.lld" "$wrapped/bin/"
    cat >"$wrapped/bin/clang" <<SCRIPT
#!/bin/sh
cp module.bc "$out/module.bc"
case " \$* " in
*" -c "*) set -- "\$@" -falign-loops=64 -mllvm -align-all-functions=6 ;;
esac
exec "$tools/bin/clang" "\$@"
SCRIPT
    chmod +x "$wrapped/bin/clang"
}

# The module as text, as it is.
write_text() {
    "$tools/bin/clang" --target="$target" -x ir "$out/module.bc" -S -emit-llvm -O0 -Xclang -disable-llvm-passes -o "$out/module.ll"
}

lib() { (cd crates/korrigwen_c && rt lib); }

mkdir -p "$out"
rm -f "$out/module.bc" "$out/libkorrigwen_c.a"
wrapped=$(mktemp -d)
trap 'rm -rf "$wrapped"' EXIT
quietly "$out/lib.log" lib
wrap_toolchain
quietly "$out/build.log" build_static korrigwen_c "$out/libkorrigwen_c.a" "$wrapped" --target "$target" \
    --incremental out/incremental
write_text
version=$("$tools/bin/clang" --version | sed -n '1s/.*version \([0-9.]*\).*/\1/p')
echo "compiled for $machine by the kit's clang $version at -O3, from $from, with functions and loops at multiples of 64 bytes" \
    >"$out/about.txt"
echo "archive: ${out#"$PWD/"}/libkorrigwen_c.a is for $machine"
