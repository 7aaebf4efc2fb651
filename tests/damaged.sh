#!/usr/bin/env bash
# A few hundred of the random and damaged inputs of host/damaged_runs.py. The last line is 'N passed, M failed'.
cd "$(dirname "$0")/.." || exit 1
bash host/build.sh search </dev/null || {
    echo "0 passed, 1 failed"
    exit 1
}
python3 host/damaged_runs.py --count 400
