#!/usr/bin/env bash
# The command that README.md shows first must print the lines that README.md shows behind it.
# The last line is 'N passed, M failed'.
cd "$(dirname "$0")/.." || exit 1
blocks=$(sed -n '/^## Search$/,/^## Queries$/p' README.md | sed -n 's/^    //p')
command=$(head -n 1 <<<"$blocks")
shown=$(tail -n +2 <<<"$blocks")
if [ -n "$shown" ] && [ "$(bash -c "$command")" = "$shown" ]; then
    echo "1 passed, 0 failed"
else
    echo "README.md shows other lines than '$command' prints"
    echo "0 passed, 1 failed"
    exit 1
fi
