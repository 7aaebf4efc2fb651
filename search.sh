#!/usr/bin/env bash
# Searches a treebank.
#   bash search.sh QUERY FILE..      the query text, and files of bracketed sentences
#   bash search.sh < FILE            a query text and then sentences, as the program itself takes them
# It proves and builds the program first if that has not been done.
set -eu
root=$(cd "$(dirname "$0")" && pwd)
bash "$root/host/build.sh" search </dev/null
program=$root/target/bin/search
if [ $# -eq 0 ]; then
    "$program"
else
    query=$1
    shift
    { printf '%s\n' "$query" && cat "$@"; } | "$program"
fi
