#!/bin/sh
# The proved library as WebAssembly: web/wasm.sh MODULE FOLDER writes FOLDER/ice40.wasm.
#
# MODULE is the folder in which scripts/keep_module.sh kept the module that libcapi.a was compiled from, with the SHA-256 of that archive. The kit's clang
# compiles the same module for wasm32.
set -eu

fail() { echo "web/wasm.sh: $*" >&2; exit 2; }

cd "$(dirname "$0")/.."
module=${1:?the folder of the module} out=${2:?the folder to write to}
# ---- the kit's clang
rt=$(command -v "${RT:-rt}") || fail 'rt is not on the path: README.md, "The Rattle kit"'
clang=$(dirname "$(dirname "$(readlink -f "$rt")")")/toolchain/bin/clang
"$clang" --print-targets 2>/dev/null | grep -q '^ *wasm32 ' || fail "the clang of this kit, $clang, does not compile for wasm32"

# ---- the module
sha256sum --check --status "$module/archive.sha256" 2>/dev/null || fail "$module has no module of the archive that is there: make clean, and once more"
set -- "$module"/*.bc
[ $# -eq 1 ] && [ -f "$1" ] || fail 'the kit did not hand one module to clang'
room=$(mktemp -d)
trap 'rm -rf "$room"' EXIT
ln -s "$clang" "$room/wasm-ld"
"$room/wasm-ld" --version >/dev/null 2>&1 || fail "the clang of this kit, $clang, does not link WebAssembly"
mkdir -p "$out"

# ---- compiled, without the processor that the module names: for what every browser since 2021 has, and else as the kit compiles for WebAssembly
"$clang" --no-default-config -x ir -S -emit-llvm -Xclang -disable-llvm-passes "$1" -o - | sed 's/ "target-cpu"="[^"]*"//' >"$room/module.ll"
"$clang" --target=wasm32-unknown-unknown -mcpu=mvp -mbulk-memory -msign-ext -mllvm -expand-div-rem-bits=64 -mllvm -expand-fp-convert-bits=64 \
    -ffunction-sections -fdata-sections -mllvm -trap-unreachable -mllvm -disable-machine-licm -mllvm -disable-postra-machine-licm \
    -mllvm -sink-common-insts=false --no-default-config -Wno-override-module -Werror -O3 -x ir -c "$room/module.ll" -o "$room/ice40.o"

# ---- linked: nothing is imported. The stack comes first, so that one that overflows reaches below address 0, where there is no memory; the
# limit of 256 MiB keeps memory from ever reaching round to there
stack=$(sed -n 's/^#define ICE40_STACK_BYTES \([0-9]*\)$/\1/p' include/ice40.h)
"$room/wasm-ld" --no-entry --export-dynamic --gc-sections --strip-all --stack-first -z "stack-size=$stack" --max-memory=268435456 \
    "$room/ice40.o" -o "$out/ice40.wasm"
