#!/usr/bin/env bash
# Measures the judge of histories over long simulated migrations, and checks what they are made of. Run it by hand
# on a quiet machine, once `rt run` or `rt ci` has built the program:
#   perf/core.sh [PROGRAM [RUNS]]
set -eu
here="$(cd "$(dirname "$0")" && pwd)"
program="${1:-$here/../crates/dr_core_speed/out/dr_core_speed}"
runs="${2:-21}"
script=core.sh
status=1
words=()
. "$here/measure.sh"

# What each request has, by its number of events.
check() {
    local wanted="$1" taken name
    at_least "$wanted" 'events taken'
    taken="$(count 'events taken')"
    for name in 'pages opened' 'entries pushed' 'entries reset' 'pages copied' 'reads'; do
        at_least $(((taken + 19) / 20)) "$name"
    done
    at_least 200 'flushes'
    at_least 1 'permissions filled'
    at_least 1 'ranges deposited after a later one'
    at_least 1 'throttles with a sleep'
}
# So many events shared by so many guests: each line but the first has the ratio to the times of half the events.
measure() {
    local guests="$1" wanted clock processor taken last_clock= last_processor=
    for wanted in 150000 300000 600000; do
        input="$wanted $guests"
        printf '%s\n' "$input" > "$folder/input"
        read -r clock processor < <(best)
        check "$wanted"
        if [ "$guests" -ge 4 ]; then at_least 200 'rounds answered'; fi
        taken="$(count 'events taken')"
        printf '%d events, the longest history %d: %d ms, %d events a second' "$taken" \
            "$(count 'events of the longest history')" "$clock" $((taken * 1000 / clock))
        if [ -n "$last_clock" ]; then printf ', %s times' "$(ratio "$clock" "$last_clock")"; fi
        printf '; processor %d ms' "$processor"
        if [ -n "$last_processor" ]; then printf ', %s times' "$(ratio "$processor" "$last_processor")"; fi
        printf '\n'
        last_clock=$clock
        last_processor=$processor
    done
}

for line in '' '150000' '\n' '0\n' '-1\n' '15e4\n' '150000 0\n' '150000 \n' ' 150000\n' '150000 4 4\n' '1\n2\n'; do
    refuses "$line"
done
echo "best of $runs runs each"
for guests in 4 1; do
    echo "guests: $guests"
    measure "$guests"
done
