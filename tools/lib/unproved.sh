#!/usr/bin/env bash
# Builds a program, or a static library, without a proof, for tools that ask it many lines: in a minute,
# where the proofs of all crates take half an hour.
#
# Usage: tools/lib/unproved.sh NAME
# It leaves the program of crates/NAME as NAME in the folder `unproved` of `out`, or the static library as
# libNAME.a, and builds it only where a source is newer. No promise holds of it: `rt run`, `rt lib` and
# `rt ci` build what is proved. A library checks itself as it runs and is up to five times slower than the proved
# one, so a tool that measures time or instructions must not use it unless it says so.
#
# `rt try` compiles a program without a proof, but with checks that make it a hundred times slower, and
# does not keep it. So it is given the toolchain's folder with another clang, which keeps the module that
# it compiles, and that is compiled again as that of a proved program is. Of a library it compiles the
# tests, and what they call: those in the folder NAME beside this script stand after its own sources then.
set -euo pipefail
. "$(dirname "$0")/usage.sh"
. "$(dirname "$0")/program.sh"

name=${1:-}
calls=$here/tools/lib/unproved/$name
if [ $# = 1 ] && [ -e "$here/crates/$name/src/main.rt" ]; then
    out=$here/out/unproved/$name
elif [ $# = 1 ] && [ -n "$name" ] && [ -d "$calls" ] && [ -e "$here/crates/$name/src/lib.rt" ]; then
    out=$here/out/unproved/lib$name.a
else
    echo "Usage: tools/lib/unproved.sh NAME, where crates/NAME is a program, or a library with calls in tools/lib/unproved" >&2
    exit 2
fi
if [ -e "$out" ] && is_newest "$out"; then
    exit
fi
need_toolchain "$name"
mkdir -p "$(dirname "$out")"
echo "Building $name without a proof, which is up to five times slower .." >&2

kit=$(dirname "$(rt doc)")
folder=$(mktemp -d)
trap 'rm -rf "$folder"' EXIT
# What is built is as old as this, so that a source that changes meanwhile is newer than it.
: > "$folder/begun"

# Links to all of a folder, but for what has one of the names after it.
link_all() {
    local from=$1 to=$2 it
    shift 2
    mkdir -p "$to"
    for it in "$from"/*; do
        case " $* " in
            *" ${it##*/} "*) ;;
            *) ln -s "$it" "$to/" ;;
        esac
    done
}

link_all "$kit" "$folder/kit" bin toolchain
link_all "$kit/bin" "$folder/kit/bin" rt rtlib.py
link_all "$kit/toolchain" "$folder/kit/toolchain" bin
link_all "$kit/toolchain/bin" "$folder/kit/toolchain/bin" clang
# `rt` takes its folder to be the one that these two really are in.
cp "$kit/bin/rt" "$kit/bin/rtlib.py" "$folder/kit/bin/"
cat > "$folder/kit/toolchain/bin/clang" << CLANG
#!/usr/bin/env bash
for word in "\$@"; do
    case \$word in *.bc) cp "\$word" "$folder/module.bc" ;; esac
done
exec "$kit/toolchain/bin/clang" "\$@"
CLANG
chmod +x "$folder/kit/toolchain/bin/clang"

root=$here
tests=()
if [[ $out == *.a ]]; then
    # The crates without what was built, since `rt` refuses links to them.
    root=$folder/tree
    tests=(--test)
    # (a folder without sources is what a crate that is gone has left in `out`)
    for crate in "$here"/crates/*/src; do
        crate=${crate%/src}
        it=$root/crates/$(basename "$crate")
        mkdir -p "$it"
        cp -R "$crate/src" "$it/"
        for part in specs proofs; do
            [ ! -e "$crate/$part" ] || cp -R "$crate/$part" "$it/"
        done
    done
    cp "$here/crates.txt" "$root/"
    for it in "$calls"/*.tests; do
        test=${it##*/}
        cat "$it" >> "$root/crates/$name/src/${test%.tests}"
    done
fi
# (after one step: what is wanted is the module alone; it ends with a failure then, as it should)
(cd "$root/crates/$name" && "$folder/kit/bin/rt" try --steps 1 "${tests[@]}") \
    < /dev/null > /dev/null 2> "$folder/said" || true
if [ ! -e "$folder/module.bc" ]; then
    echo "unproved.sh: \`rt try\` compiled no module of $name:" >&2
    tail -n 20 "$folder/said" >&2
    exit 2
fi
target=x86_64-unknown-linux-gnu
compile=("$kit/toolchain/bin/clang" "--target=$target" -march=x86-64-v2 --no-default-config
    -Wno-override-module -mllvm -trap-unreachable -ffunction-sections -fdata-sections)
if [[ $out == *.a ]]; then
    # What C calls gets its own name, and the tests' `main` is left out as no one's.
    "${compile[@]}" -S -emit-llvm -O0 -x ir "$folder/module.bc" -o "$folder/module.ll"
    # The names that C calls, as a|b|c.
    called=$(sed -nE 's/^pub extern "C" fn (\w+)\(.*/\1/p' "$here/crates/$name"/src/*.rt | paste -sd '|')
    # In the module a function has its crate and module before its name, and only what the tests call is there.
    sed -E -e 's/^define (.*@main\()/define internal \1/' -e "s/@\"$name::(\w+::)?($called)\"/@\2/g" \
        -e "s/^define internal (.*@($called)\()/define \1/" "$folder/module.ll" > "$folder/named.ll"
    "${compile[@]}" -O2 -fPIC -c -x ir "$folder/named.ll" -o "$folder/module.o"
    "$kit/toolchain/bin/llvm-ar" rcs "$folder/library.a" "$folder/module.o"
    touch -r "$folder/begun" "$folder/library.a"
    mv "$folder/library.a" "$out"
    exit
fi
"${compile[@]}" -O2 -fPIE -c -x ir "$folder/module.bc" -o "$folder/module.o"
"$kit/bin/rattle-link" --target $target --toolchain "$kit/toolchain" -o "$folder/program" \
    "$folder/module.o" "$kit/c/libos_c.a" "$kit/c/liblibc_c.a" 2> "$folder/said" || { cat "$folder/said" >&2 && exit 2; }
touch -r "$folder/begun" "$folder/program"
mv "$folder/program" "$out"
