#!/usr/bin/env bash
# The library from other languages: builds it, then runs the test in C and the tests in Rust, which compare it with an
# implementation of document 01 by definition. The last line is 'N passed, M failed'.
#
# The library is x86-64 code. On another machine a compiler and an emulator beside the kit serve, as an older kit had them: the
# test in C runs under the emulator, and the Rust tests, which run natively, call the library through a program there
# (host/c/serve.c).
set -u
cd "$(dirname "$0")/.." || exit 1
passed=0
failed=0
made=target/host
mkdir -p "$made"

rm -f target/staticlib/libexport.a
if ! bash host/build.sh export; then
    echo "0 passed, 1 failed"
    exit 1
fi
library=target/staticlib/libexport.a

kit=${RATTLE_HOME:-$(dirname "$(readlink -f "$(command -v rt)")")/..}
own=$kit/on/$(uname -m)
tools=$own/toolchain
if [ "$(uname -m)" = x86_64 ]; then
    build() { # build PROGRAM FILE.c
        gcc -std=c11 -Wall -Wextra -Werror -O1 -o "$1" "$2" "$library"
    }
    start=
else
    build() {
        "$tools/bin/clang" --target=x86_64-linux-gnu -std=c11 -Wall -Wextra -Werror -O1 -c -o "$1.o" "$2" -nostdinc \
            -isystem "$(gcc -print-file-name=include)" -isystem "/usr/include/$(gcc -print-multiarch)" -isystem /usr/include &&
            "$own/bin/rattle-link" --target x86_64-unknown-linux-gnu --toolchain "$tools" -o "$1" "$1.o" "$library" 2>"$1.log"
    }
    start="$tools/bin/qemu-x86_64 $tools/lib/ld-linux-x86-64.so.2 --library-path $tools/lib"
fi

# the test in C
if build "$made/test_c" host/c/test.c && [ -x "$made/test_c" ]; then
    output=$($start "$made/test_c")
    status=$?
    echo "$output"
    counts=$(echo "$output" | sed -n 's/^test\.c: \([0-9]*\) passed, \([0-9]*\) failed$/\1 \2/p')
    read -r ok bad <<<"${counts:-0 1}"
    [ "$status" -eq 0 ] || [ "$bad" -gt 0 ] || bad=1
    passed=$((passed + ok))
    failed=$((failed + bad))
else
    echo "the test in C does not build"
    failed=$((failed + 1))
fi

# the tests in Rust
if [ -n "$start" ]; then
    if build "$made/serve" host/c/serve.c; then
        export POUCHMEADOW_SERVE="$start $PWD/$made/serve"
    else
        echo "the program that calls the library does not build"
        failed=$((failed + 1))
    fi
fi
log=$(mktemp)
trap 'rm -f "$log"' EXIT
(cd host && cargo test --offline --release --no-fail-fast) 2>&1 | tee "$log"
status=${PIPESTATUS[0]}
ok=0
bad=0
while read -r a b; do
    ok=$((ok + a))
    bad=$((bad + b))
done < <(sed -n 's/^test result: [A-Za-z]*\. \([0-9]*\) passed; \([0-9]*\) failed;.*/\1 \2/p' "$log")
# a run that fails and counts no failure, or counts nothing, is one failure
if { [ "$status" -ne 0 ] && [ "$bad" -eq 0 ]; } || [ $((ok + bad)) -eq 0 ]; then
    bad=$((bad + 1))
fi
passed=$((passed + ok))
failed=$((failed + bad))

echo "$passed passed, $failed failed"
[ "$failed" -eq 0 ]
