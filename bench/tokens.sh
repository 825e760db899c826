#!/usr/bin/env bash
# The time of a walk over the tokens of texts of 1, 2 and 4 MiB: five texts on which a reader that forgets takes time
# that grows with the square of the length, and the speed on ordinary source, on comments and on blanks.
# Prints the user time of the best of several runs, in milliseconds. Ends with status 1 where a text takes more than
# 2.5 times as long at twice the length.
set -eu
cd "$(dirname "$0")/.."
program=crates/bench_reading/out/bench_reading
runs=${RUNS:-7}
[ -x "$program" ] || (cd crates/bench_reading && rt run -- tokens <stdin >/dev/null)
texts=$(mktemp -d)
trap 'rm -rf "$texts"' EXIT

# Writes so many bytes of a repeated piece.
repeated() { { yes "$1" || true; } | tr -d '\n' | head -c "$2"; }

# Writes a text by its name and length.
text() {
    case $1 in
    unclosed_comments) repeated '/* ' "$2" ;;
    digits) repeated 9 "$2" ;;
    unclosed_quotes) repeated "'\\" "$2" ;;
    float) repeated 7 "$(($2 - 2))" && printf '.5' ;;
    unclosed_escape) printf '"\\' && repeated 7 "$(($2 - 2))" ;;
    source) { yes "$(<crates/bench_reading/stdin)" || true; } | head -c "$2" ;;
    comments) { yes '% a line of a comment, as long as lines of comments in source often are, or a little less' || true; } | head -c "$2" ;;
    blanks) repeated '                                ' "$2" ;;
    esac
}

# The best user time of the program on a file, in milliseconds.
best() {
    local least=
    for _ in $(seq "$runs"); do
        local took
        took=$({ TIMEFORMAT=%3U; time "$program" tokens <"$1" >/dev/null; } 2>&1 | tr -d .)
        took=$((10#$took))
        if [ -z "$least" ] || [ "$took" -lt "$least" ]; then least=$took; fi
    done
    echo "$least"
}

status=0
for name in unclosed_comments digits unclosed_quotes float unclosed_escape; do
    before=
    line="$name:"
    for mib in 1 2 4; do
        text "$name" $((mib << 20)) >"$texts/text"
        took=$(best "$texts/text")
        line="$line $mib MiB $took ms"
        if [ -n "$before" ] && [ $((took * 10)) -gt $((before * 25 + 20)) ]; then
            line="$line (more than 2.5 times as long)"
            status=1
        fi
        before=$took
    done
    echo "$line"
done
for name in source comments blanks; do
    text "$name" $((64 << 20)) >"$texts/text"
    took=$(best "$texts/text")
    echo "$name: 64 MiB $took ms, $((64 * 1048576 / 1000 / took)) MB/s"
done
exit $status
