#!/usr/bin/env bash
# Measures `step` into files on three guests of 16,384 pages against a plain program that writes the same stream
# and image. Run it by hand on a quiet machine, once `rt run` or `rt ci` has built the program:
#   perf/files.sh [PROGRAM [FOLDER]]
set -eu
here="$(cd "$(dirname "$0")" && pwd)"
program="${1:-$here/../crates/dirtyring_cli/out/dirtyring_cli}"
folder="$(mktemp -d "${2:-/tmp}/bench.XXXXXX")"
trap 'rm -rf "$folder"' EXIT
pages=16384
cc -O2 -o "$folder/plain" "$here/plain.c"

# Four vCPUs that count: the guest of examples/counters.guest over more pages.
sed 's/^slot 0 0 4096$/slot 0 0 14336/' "$here/../examples/counters.guest" > "$folder/count.guest"
# One vCPU whose script has an op a page: it paints the page, or stores one byte in it.
one_op_a_page() {
    local format="$1" factor="$2" page
    printf 'dirtyguest 1\nring 8\nreserve 2\nbuffer 0\npace 200000\nthreshold 0\nrounds 15\nquota 0\n'
    printf 'slot 0 0 %s\nvcpu\n' "$pages"
    for ((page = 0; page < pages; page++)); do printf "$format" $((page * factor)) $((page % 256)); done
    printf 'halt\n'
}
one_op_a_page 'f %s %02x\n' 1 > "$folder/paint.guest"
one_op_a_page 'w %s %02x\n' 4096 > "$folder/store.guest"

step() {
    "$program" step --in "$folder/$1.guest" --stream "$folder/step.stream" --image "$folder/step.image" \
        > "$folder/report"
}
plain() {
    "$folder/plain" "$1" "$pages" "$folder/plain.stream" "$folder/plain.image"
}
ours=step
. "$here/compare.sh"
compare() {
    best_of_nine "$1"
    printf '%s: ' "$1"
    print_best
    echo
    step "$1"
    plain "$1"
    cmp "$folder/step.stream" "$folder/plain.stream"
    cmp "$folder/step.image" "$folder/plain.image"
}
compare count
compare paint
compare store
echo 'the same streams and images'
