#!/usr/bin/env bash
# For measuring on a machine that isn't x86-64: target/native/libcapi.a, the library's module as the kit hands it to its compiler, compiled
# for this machine. The product is the archive for x86-64 alone, and the tests use no other; times taken with this one say how quick the
# same code is here. Name its folder in SLUSHTROWEL_LIB.
set -euo pipefail
cd "$(dirname "$0")/.."
machine=$(uname -m)
kit=${RATTLE_HOME:-$(dirname "$(dirname "$(readlink -f "$(command -v rt)")")")}
tools=$kit/toolchain
out=$PWD/target/native
shadow=$out/kit
rm -rf "$out"
mkdir -p "$shadow/bin" "$shadow/toolchain/bin"

# a kit beside the kit: all is as there, but its compiler keeps a copy of the module; rt finds its kit by where its own file lies
link_all() { # FROM TO BUT..
    for entry in "$1"/*; do
        case " ${*:3} " in *" ${entry##*/} "*) ;; *) ln -s "$entry" "$2/" ;; esac
    done
}
link_all "$kit" "$shadow" bin toolchain
link_all "$kit/bin" "$shadow/bin" rt rtlib.py
cp "$kit/bin/rt" "$kit/bin/rtlib.py" "$shadow/bin"
link_all "$tools" "$shadow/toolchain" bin
link_all "$tools/bin" "$shadow/toolchain/bin" clang
cat > "$shadow/toolchain/bin/clang" <<END
#!/bin/sh
cp module.bc "$out/module.bc"
exec "$tools/bin/clang" "\$@"
END
chmod +x "$shadow/toolchain/bin/clang"
(cd crates/capi && "$shadow/bin/rt" lib) | tail -n 1

"$tools/bin/clang" "--target=$machine-unknown-linux-gnu" -Wno-override-module -O3 -fPIC -ffunction-sections -c -x ir "$out/module.bc" -o "$out/capi.o"
"$tools/bin/llvm-ar" rcs "$out/libcapi.a" "$out/capi.o"
rm -rf "$shadow" "$out/rattle-kept" "$out/module.bc" "$out/capi.o"
