# What the scripts share that time a command against a plain program. A script that sources it has set `folder`, and in
# `ours` the name of the command; it has a function of that name and one called `plain`, which run a program on an input
# and write the files NAME.* and plain.* there.

# The microseconds that a command takes, into new files and with nothing left to write to the disk.
took() {
    rm -f "$folder/$ours".* "$folder"/plain.*
    sync
    local from=$(date +%s%N)
    "$@"
    echo $((($(date +%s%N) - from) / 1000))
}
# The best of nine runs of each on an input, one after the other in turn: `best_ours` and `best_plain`.
best_of_nine() {
    local now
    best_ours= best_plain=
    for _ in 1 2 3 4 5 6 7 8 9; do
        now=$(took "$ours" "$1")
        if [ -z "$best_ours" ] || [ "$now" -lt "$best_ours" ]; then best_ours=$now; fi
        now=$(took plain "$1")
        if [ -z "$best_plain" ] || [ "$now" -lt "$best_plain" ]; then best_plain=$now; fi
    done
}
# Both times, and how often the one is the other.
print_best() {
    printf '%s %d.%03d ms, plain program %d.%03d ms: %d.%02d times' "$ours" \
        $((best_ours / 1000)) $((best_ours % 1000)) $((best_plain / 1000)) $((best_plain % 1000)) \
        $((best_ours / best_plain)) $((best_ours * 100 / best_plain % 100))
}
