#!/bin/sh
# Keeps the LLVM module of the archive: scripts/keep_module.sh FOLDER RT ARCHIVE puts it into FOLDER, with the archive's SHA-256.
#
# The kit turns a proved crate into an LLVM module and calls its own clang, for x86-64. ARCHIVE was built so. Here it is built once more, over the same
# proofs, by a kit of links to that kit, in which clang first keeps the module and then goes on as ever; both archives must be the same, byte for byte.
# rt finds its kit from where it lies, so rt alone is copied. Where a kit has no such clang no module is kept. The links are not below the checkout,
# because the gate refuses links there.
set -eu

out=$1 rt=$2 archive=$3
rm -rf "$out"
mkdir -p "$out"
out=$(cd "$out" && pwd -P)
program=$(readlink -f "$(command -v "$rt")")
kit=$(dirname "$(dirname "$program")")
clang=$kit/toolchain/bin/clang
if [ -x "$clang" ]; then
    room=$(mktemp -d)
    trap 'rm -rf "$room"' EXIT
    trap 'exit 1' HUP INT TERM
    links=$room/kit
    mkdir -p "$links/bin" "$links/toolchain/bin"
    link_all() { # FOLDER BUT..: links to all in a folder of the kit but these names
        folder=$1
        shift
        for path in "$kit/$folder"/*; do
            case " $* " in *" ${path##*/} "*) ;; *) ln -s "$path" "$links/$folder/" ;; esac
        done
    }
    link_all . bin toolchain
    link_all bin rt rtlib.py
    cp "$kit/bin/rt" "$kit/bin/rtlib.py" "$links/bin/"
    link_all toolchain bin
    link_all toolchain/bin clang
    cat >"$links/toolchain/bin/clang" <<END
#!/bin/sh
for word in "\$@"; do
    case \$word in *.bc) cp "\$word" "$out/" ;; esac
done
exec "$clang" "\$@"
END
    chmod +x "$links/toolchain/bin/clang"
    (cd crates/capi_c && "$links/bin/rt" lib) >"$room/log" 2>&1 || { cat "$room/log" >&2; exit 1; }
    cmp -s "$archive" crates/capi_c/out/libcapi_c.a || { echo "keep_module.sh: the archive came out otherwise: make clean, and once more" >&2; exit 1; }
fi
sha256sum "$archive" >"$out/archive.sha256"
