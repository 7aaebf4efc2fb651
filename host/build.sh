#!/usr/bin/env bash
# Proves and builds what is shipped; both stay where they are as long as no source is newer and the kit is the same.
#   bash host/build.sh search      target/bin/search, the program
#   bash host/build.sh export      target/staticlib/libexport.a, the library for other languages
set -eu
cd "$(dirname "$0")/.."
case ${1:-} in
    search) made=target/bin/search built=crates/search/out/search ;;
    export) made=target/staticlib/libexport.a built=crates/export/out/libexport.a ;;
    *)
        echo "usage: bash host/build.sh search | export" >&2
        exit 2
        ;;
esac
kit=$(rt version)
if [ -s "$made" ] && [ "$(cat "$made.kit" 2>/dev/null)" = "$kit" ] && [ -z "$(find crates crates.txt -name out -prune -o -newer "$made" -type f -print -quit)" ]; then exit 0; fi
mkdir -p "$(dirname "$made")"
log=$(mktemp)
trap 'rm -f "$log"' EXIT
# rt run builds the program and runs it once, here on no input
if [ "$1" = search ]; then
    (cd crates/search && rt run </dev/null) >"$log" 2>&1 || { cat "$log" >&2 && exit 1; }
else
    (cd crates/export && rt lib) >"$log" 2>&1 || { cat "$log" >&2 && exit 1; }
fi
cp "$built" "$made.new"
mv "$made.new" "$made"
printf '%s\n' "$kit" >"$made.kit"
