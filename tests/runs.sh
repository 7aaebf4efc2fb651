#!/usr/bin/env bash
# Whole runs of the built program: tests/runs/NAME/stdin must give tests/runs/NAME/stdout, and where there is a file stderr,
# that on standard error (an empty one: nothing). The exit status is 0, on a refusal too.
# The last line is 'N passed, M failed'.
set -u
cd "$(dirname "$0")/.." || exit 1
passed=0
failed=0
wrote=$(mktemp) said=$(mktemp)
trap 'rm -f "$wrote" "$said"' EXIT
for run in tests/runs/*/; do
    name=$(basename "$run")
    bash search.sh <"$run/stdin" >"$wrote" 2>"$said"
    status=$?
    if [ "$status" -ne 0 ]; then
        echo "$name: exit status $status"
    elif ! cmp "$wrote" "$run/stdout"; then
        echo "$name: other lines than expected"
    elif [ -e "$run/stderr" ] && ! cmp "$said" "$run/stderr"; then
        echo "$name: other words on standard error than expected"
    else
        passed=$((passed + 1))
        continue
    fi
    failed=$((failed + 1))
done
[ $((passed + failed)) -gt 0 ] || failed=1
echo "$passed passed, $failed failed"
[ "$failed" -eq 0 ]
