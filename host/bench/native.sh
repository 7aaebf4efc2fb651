#!/usr/bin/env bash
# Makes target/native/search and target/native/libexport.a for the processor it runs on. For measuring only: what is shipped,
# and what the tests run, is the x86-64 code.
# Where it compiles itself it also makes target/native/search_by_function, without inlining, to see shares by function.
#
# On x86-64 these are copies of what `rt` builds. Elsewhere the kit's clang compiles once more the one bitcode file that the
# Rattle compiler hands it, for this processor: a copy of the kit, made of links, has a clang that keeps that file.
set -eu
cd "$(dirname "$0")/../.."
made=target/native
mkdir -p "$made"
machine=$(uname -m)

if [ "$machine" = x86_64 ]; then
    bash host/build.sh search
    bash host/build.sh export
    cp target/bin/search target/staticlib/libexport.a "$made"
    exit
fi

kit=$(cd "${RATTLE_HOME:-$(dirname "$(readlink -f "$(command -v rt)")")/..}" && pwd -P)
clang=$kit/on/$machine/toolchain/bin/clang
room=$(mktemp -d)
chmod 755 "$room" # rt runs a program as nobody where it can
trap 'rm -rf "$room"' EXIT

# keep NAME COMMAND..: runs the command with the copy of the kit, and keeps its bitcode as NAME.bc. Not again if that file is
# newer than every crate, since it takes a proof.
keep() {
    name=$1
    shift
    kept=$PWD/$made/$name.bc
    if [ -s "$kept" ] && [ -z "$(find crates crates.txt -name out -prune -o -newer "$kept" -type f -print -quit)" ]; then return; fi
    copy=$room/$name
    cp -as "$kit" "$copy"
    own=$copy/on/$machine/toolchain/bin/clang
    rm "$own"
    cat >"$own" <<END
#!/bin/sh
for a; do
    case \$a in *.bc) cp "\$a" "$kept.new" ;; esac
done
exec "$clang" "\$@"
END
    chmod +x "$own"
    rm -f "target/bin/$name" "target/staticlib/lib$name.a" "crates/$name/out/$name" "crates/$name/out/lib$name.a" "$kept" "$kept.new"
    RATTLE_HOME=$copy "$@"
    [ -s "$kept.new" ] || {
        echo "native.sh: no bitcode of $name came by" >&2
        exit 1
    }
    mv "$kept.new" "$kept"
}

compile() { # compile NAME OBJECT OPTION..: NAME.bc to OBJECT.o
    name=$1 object=$made/$2
    shift 2
    "$clang" --target="$machine-unknown-linux-gnu" -Wno-override-module -O3 "$@" -c -x ir "$made/$name.bc" -o "$object.o" 2>"$object.log" || {
        cat "$object.log" >&2
        exit 1
    }
}

keep search bash host/build.sh search
compile search search
gcc -no-pie "$made/search.o" -o "$made/search"
compile search search_by_function -mllvm -inline-threshold=-100000
gcc -no-pie "$made/search_by_function.o" -o "$made/search_by_function"

keep export bash host/build.sh export
compile export export
rm -f "$made/libexport.a"
ar rcs "$made/libexport.a" "$made/export.o"
