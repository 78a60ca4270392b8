#!/usr/bin/env bash
# Measures `load` of a migration stream into a file against a plain program that makes the same checks and writes the
# same image: a stream of 16,384 page records (64 MiB), one of as many zero records, and a damaged one, which both
# refuse at its end. The images and what is printed are compared, and the memory of `load` with the bytes of the stream
# and the image. Run it by hand on a quiet machine, once `rt run` or `rt ci` has built the program:
#   perf/load.sh [PROGRAM [FOLDER]]
set -eu
here="$(cd "$(dirname "$0")" && pwd)"
pages=16384
program="${1:-$here/../crates/dirtyring_cli/out/dirtyring_cli}"
folder="$(mktemp -d "${2:-/tmp}/load.XXXXXX")"
trap 'rm -rf "$folder"' EXIT
rustc -O --edition 2021 -o "$folder/plain_load" "$here/plain_load.rs"

fail() {
    echo "perf/load.sh: $*" >&2
    exit 1
}
# Each program over a stream into its image; what it ends with is kept.
load() {
    code=0
    "$program" load --in "$folder/$1" --image "$folder/load.image" > "$folder/load.report" 2> "$folder/error" || code=$?
}
plain() {
    code=0
    "$folder/plain_load" "$folder/$1" "$folder/plain.image" > "$folder/plain.report" 2> "$folder/plain.error" || code=$?
}
ours=load
. "$here/compare.sh"

# Both end with this code on a stream, and leave the same image and the same line, or neither.
same_ends() {
    local port
    rm -f "$folder"/load.* "$folder"/plain.*
    load "$1"
    [ "$code" = "$2" ] || fail "$1: load ends with $code: $(cat "$folder/error")"
    plain "$1"
    [ "$code" = "$2" ] || fail "$1: the plain program ends with $code: $(cat "$folder/plain.error")"
    for port in image report; do
        if [ -e "$folder/plain.$port" ] || [ -e "$folder/load.$port" ]; then
            cmp "$folder/load.$port" "$folder/plain.$port" || fail "$1: another $port"
        fi
    done
}
# Where a stream is refused, by one line.
one_line() {
    [ "$(wc -l < "$folder/error")" = 1 ] || fail "$1: more or less than one line: $(cat "$folder/error")"
    echo "$1: $(cat "$folder/error")"
}
# The greatest memory of `load` in KiB, and how much of the bytes of the stream and the image it is.
memory() {
    local peak both
    /usr/bin/time -f %M -o "$folder/peak" "$program" load --in "$folder/$1" --image "$folder/load.image" \
        > "$folder/load.report"
    peak=$(cat "$folder/peak")
    both=$((($(stat -c %s "$folder/$1") + pages * 4096) / 1024))
    printf '%s: %d KiB at most, stream and image %d KiB: %d.%02d times, ' "$1" "$peak" "$both" \
        $((peak / both)) $((peak * 100 / both % 100))
    if [ $((peak * 10)) -le $((both * 11)) ]; then echo 'at most 1.1'; else echo 'more than 1.1'; fi
}
measure() {
    same_ends "$1" 0
    best_of_nine "$1"
    printf '%s: ' "$1"
    print_best
    printf ', '
    if [ $((best_ours * 10)) -le $((best_plain * 13)) ]; then echo 'at most 1.3'; else echo 'more than 1.3'; fi
    memory "$1"
}

for kind in pages zeros damaged; do
    "$folder/plain_load" make $kind $pages "$folder/$kind"
done
measure pages
measure zeros
same_ends damaged 8
one_line damaged
best_of_nine damaged
printf 'damaged: '
print_best
echo
