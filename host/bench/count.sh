#!/usr/bin/env bash
# Instructions of target/native/search, counted by callgrind: they repeat where times do not. First `bash host/bench/native.sh`.
#   bash host/bench/count.sh            instructions a sentence, and growth with the rows
#   bash host/bench/count.sh shares     in which functions they are spent
set -eu
cd "$(dirname "$0")/../.."
program=target/native/search
room=$(mktemp -d)
trap 'rm -rf "$room"' EXIT

# The query and so many copies of a file, which the program must read whole.
input() { # input QUERY FILE COPIES
    {
        printf '%s\n' "$1"
        for ((i = 0; i < $3; i++)); do cat "$2"; done
    } >"$room/in"
    [ "$(wc -c <"$room/in")" -lt 65536 ] || {
        echo "count.sh: more than the program reads" >&2
        exit 1
    }
}

profile() { # profile PROGRAM: of a run on the input
    valgrind --tool=callgrind --callgrind-out-file="$room/profile" "$1" <"$room/in" 2>&1 >/dev/null | sed -n 's/.*Collected : //p'
}

# Two runs, so that what the program needs to start is left out.
each() { # each QUERY FILE SENTENCES COPIES: instructions a sentence
    input "$1" "$2" 1
    one=$(profile "$program")
    input "$1" "$2" $(($4 + 1))
    more=$(profile "$program")
    echo $(((more - one) / ($3 * $4)))
}

garden=samples/garden.mrg
sentences=$(wc -l <"$garden")
query='Q(x,y) <- NP(x), Child+(x,y), NN(y).'

if [ "${1:-}" = shares ]; then
    for text in 'Q(x) <- ZZZ(x).' "$query"; do
        input "$text" "$garden" 40
        for p in "$program" "${program}_by_function"; do
            [ -x "$p" ] || continue
            all=$(profile "$p")
            printf '\n`%s`, %s: %s instructions, shares from 1%%\n\n' "$text" "$p" "$all"
            # own instructions only: callgrind's sums with calls are wrong where it loses track of returns. Calls of a
            # function from itself have lines of their own, with a mark behind the name.
            callgrind_annotate --threshold=100 "$room/profile" |
                awk -v all="$all" '/ \([ 0-9.]*%\) .*:/ { n = $1; gsub(",", "", n); name = $0
                        sub(/^[^%]*%\) *[^:]*:/, "", name); sub(/ \[[^[]*$/, "", name); sub(/\x27[0-9]*$/, "", name)
                        own[name] += n }
                    END { for (name in own) if (own[name] * 100 >= all) printf "%5.1f%%  %s\n", own[name] * 100 / all, name }' |
                sort -rn
        done
    done
    exit
fi

echo '| the sample sentences | instructions a sentence |'
echo '|---|---|'
for text in 'Q(x) <- ZZZ(x).' "$query" 'Q(x,y) <- NP(x), Following(x,y), PP(y).' 'Q(x,y) <- NP(x), Child(x,y), PP(y).' \
    'Q(x,y,z) <- VP(x), Child(x,y), NP(y), NextSibling+(y,z), PP(z).'; do
    echo "| \`$text\` | $(each "$text" "$garden" "$sentences" 40) |"
done

# No row is a ZZZ, so that nothing is listed. Both sides of the axis condition are looked at once, with all rows in both sets.
sentence() { # sentence SHAPE ROWS
    (cd host && cargo bench --offline --quiet -- "$1" "$2")
}
echo
echo '| | rows | `Q(z) <- ZZZ(z).` a row | a look at both sides by `Child+` a row | by `Following` | by `Child` | by `NextSibling` | by `NextSibling+` |'
echo '|---|---|---|---|---|---|---|---|'
for shape in wide deep; do
    for rows in 64 128 256 512 1024; do
        sentence "$shape" "$rows" >"$room/tree"
        copies=$((60000 / $(wc -c <"$room/tree") - 1))
        [ $copies -le 8 ] || copies=8
        bare=$(each 'Q(z) <- ZZZ(z).' "$room/tree" 1 $copies)
        line="| $shape | $rows | $((bare / rows)) |"
        for axis in Child+ Following Child NextSibling NextSibling+; do
            with=$(each "Q(z) <- ZZZ(z), $axis(x,y)." "$room/tree" 1 $copies)
            line="$line $(awk -v a="$with" -v b="$bare" -v n="$rows" 'BEGIN { printf "%.1f", (a - b) / n }') |"
        done
        echo "$line"
    done
done
