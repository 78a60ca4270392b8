#!/usr/bin/env bash
# Measures how the time of `step` grows with a migration, over guests that write all their pages, and checks what
# the runs are made of. Run it by hand on a quiet machine, once `rt run` or `rt ci` has built the program:
#   perf/growth.sh [PROGRAM [RUNS]]
set -eu
here="$(cd "$(dirname "$0")" && pwd)"
program="${1:-$here/../crates/dirtyring_cli/out/dirtyring_cli}"
runs="${2:-15}"
vcpus=8
pages=16384
rounds=8
script=growth.sh
words=(step)
. "$here/measure.sh"

# A guest with this log buffer. Each vCPU goes so often over 6,249 pages, each from a page of its own on, and
# stores a byte in each; some additions and a halt make the number of its ops 6,250 times that. To be paced
# takes more stores than its ring has entries, so in most rounds each vCPU leaves the guest once, full.
guest() {
    awk -v buffer="$1" -v times="$2" -v vcpus="$vcpus" -v pages="$pages" 'BEGIN {
        print "dirtyguest 1\nring 1024\nreserve 64\nbuffer " buffer
        print "pace 1800\nthreshold 0\nrounds 15\nquota 0"
        print "slot 0 0 " pages
        for (v = 0; v < vcpus; v++) {
            print "vcpu\nrep " times
            for (i = 0; i < 6249; i++) print "w " (v * pages / vcpus + i) % pages * 4096 + i % 4096 " 01"
            print "end"
            for (i = 1; i < times; i++) print "a 1"
            print "halt"
        }
    }'
}
# Counts the events of a run by their first words, as the lines that `count` reads.
events_of_run() {
    "$program" step --journal "$folder/journal" < "$folder/input" > "$folder/report"
    awk '/^journal$/ { told = 1; next } told && /^end$/ { exit } told { events++; of[$1]++ }
        END {
            print "events: " events
            print "ops executed: " of["r"] + of["w"] + of["f"] + of["l"] + of["h"]
            split("o p z copy ask sync flush x", kinds, " ")
            for (k in kinds) print kinds[k] ": " of[kinds[k]] + 0
        }' "$folder/journal" > "$folder/counts"
}
# What each guest has: its ops are all executed, what is pushed is reset, and what is asked is answered.
check() {
    local events name
    events_of_run
    [ "$(count 'ops executed')" = "$1" ] || fail "$input: $(count 'ops executed') ops executed, and $1 are wanted"
    events="$(count events)"
    for name in o p z copy; do
        at_least $(((events + 19) / 20)) "$name"
    done
    [ "$(count o)" = "$(count p)" ] || fail "$input: not all that is opened is pushed"
    [ "$(count p)" = "$(count z)" ] || fail "$input: not all that is pushed is reset"
    [ "$(count ask)" = "$(count sync)" ] || fail "$input: not all that is asked is answered"
    at_least "$rounds" sync
    at_least "$vcpus" flush
    at_least $((vcpus * rounds)) x
}
# 100,000 ops and 200,000, with this log buffer: the second line has the ratio to the times of the first.
measure() {
    local buffer="$1" times ops clock processor events last_clock= last_processor=
    for times in 2 4; do
        ops=$((times * 6250 * vcpus))
        input="buffer $buffer, $ops ops"
        guest "$buffer" "$times" > "$folder/input"
        read -r clock processor < <(best)
        check "$ops"
        events="$(count events)"
        printf '%d ops, %d events (%d opened, pushed and reset each, %d copied, %d rounds): %d ms, %d events a second' \
            "$ops" "$events" "$(count z)" "$(count copy)" "$(count sync)" "$clock" $((events * 1000 / clock))
        if [ -n "$last_clock" ]; then printf ', %s times' "$(ratio "$clock" "$last_clock")"; fi
        printf '; processor %d ms' "$processor"
        if [ -n "$last_processor" ]; then printf ', %s times' "$(ratio "$processor" "$last_processor")"; fi
        printf '\n'
        if [ -n "$last_processor" ] && [ $((processor * 10)) -gt $((last_processor * 23)) ]; then
            fail "$input: more than 2.3 times the processor's time of half the ops"
        fi
        last_clock=$clock
        last_processor=$processor
    done
}

echo "best of $runs runs each; the report is written, and the other outputs are discarded"
for buffer in 16 0; do
    echo "buffer: $buffer"
    measure "$buffer"
done
