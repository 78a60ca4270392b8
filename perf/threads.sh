#!/usr/bin/env bash
# Measures `run` against `step` on guests of 16,384 pages and some 20,000 copies, with 1 to 32 vCPUs. Run it by hand on a
# quiet machine, once `rt run` or `rt ci` has built the program:
#   perf/threads.sh [PROGRAM]
set -eu
here="$(cd "$(dirname "$0")" && pwd)"
program="${1:-$here/../crates/dirtyring_cli/out/dirtyring_cli}"
folder="$(mktemp -d /tmp/threads.XXXXXX)"
trap 'rm -rf "$folder"' EXIT

# So many vCPUs that paint the pages, each its own share, and are paced by it. After the start each stores eight bytes in
# its share of 4,000 pages, with some additions after each store, so that pages are written beside their first copies.
guest() {
    awk -v vcpus="$1" -v pages=16384 'BEGIN {
        own = pages / vcpus
        again = 4000 / vcpus
        print "dirtyguest 1\nring 256\nreserve 16\nbuffer 16\npace " own "\nthreshold 0\nrounds 15\nquota 0"
        print "slot 0 0 " pages
        for (v = 0; v < vcpus; v++) {
            print "vcpu"
            for (i = 0; i < own; i++) printf "f %d %02x\n", v * own + i, (v * 31 + i) % 256
            for (i = 0; i < again; i++) {
                printf "w %d %016x\n", (v * own + i * 4) * 4096 + i % 500 * 8, v * 1000 + i
                print "rep 30\na 1\nend"
            }
            print "halt"
        }
    }'
}
migrate() {
    "$program" "$1" --in "$folder/guest" --stream "$folder/$1.stream" --image "$folder/$1.image" \
        --journal "$folder/$1.journal" > "$folder/$1.report"
}
# The best of nine runs in microseconds, into new files and with nothing left to write to the disk.
best() {
    local least= from now
    for _ in 1 2 3 4 5 6 7 8 9; do
        rm -f "$folder/$1".*
        sync
        from=$(date +%s%N)
        migrate "$1"
        now=$((($(date +%s%N) - from) / 1000))
        if [ -z "$least" ] || [ "$now" -lt "$least" ]; then least=$now; fi
    done
    echo "$least"
}
for vcpus in 1 2 4 8 32; do
    guest "$vcpus" > "$folder/guest"
    step=$(best step)
    run=$(best run)
    cmp "$folder/step.image" "$folder/run.image"
    printf '%2d vCPUs: step %d.%03d ms, run %d.%03d ms (%d copies): %d.%02d times\n' "$vcpus" \
        $((step / 1000)) $((step % 1000)) $((run / 1000)) $((run % 1000)) "$(grep -c '^copy ' "$folder/run.journal")" \
        $((run / step)) $((run * 100 / step % 100))
done
