# What the scripts share that time a program of this repository and read the counts that it prints. A script that sources
# it has set `script`, `program`, its `words`, `runs` and the `status` with which the program refuses an input.
folder="$(mktemp -d /tmp/perf.XXXXXX)"
trap 'rm -rf "$folder"' EXIT

fail() {
    echo "perf/$script: $*" >&2
    exit 1
}
# The count that the last run printed after a name.
count() {
    sed -n "s/^$1: //p" "$folder/counts"
}
# At least so many of a name in the last run, whose input is called `input`.
at_least() {
    local found
    found="$(count "$2")"
    [ -n "$found" ] && [ "$found" -ge "$1" ] || fail "$input: $2: ${found:-no line}, and $1 or more are wanted"
}
# The milliseconds of the whole process by the clock, and those of the processor.
took() {
    local TIMEFORMAT='%3R %3U %3S' real user system
    { time "$program" "${words[@]}" < "$folder/input" > "$folder/counts"; } 2> "$folder/times"
    read -r real user system < "$folder/times"
    echo "$((10#${real/./})) $((10#${user/./} + 10#${system/./}))"
}
# The best of the runs over the input, by the clock and of the processor.
best() {
    local clock= processor= now used
    for ((run = 0; run < runs; run++)); do
        read -r now used < <(took)
        if [ -z "$clock" ] || [ "$now" -lt "$clock" ]; then clock=$now; fi
        if [ -z "$processor" ] || [ "$used" -lt "$processor" ]; then processor=$used; fi
    done
    echo "$clock $processor"
}
# A ratio with two places.
ratio() {
    printf '%d.%02d' $(($1 / $2)) $(($1 * 100 / $2 % 100))
}
# What is no input for the program is refused by one line and its status.
refuses() {
    local ended=0
    printf -- "$1" | "$program" "${words[@]}" > "$folder/counts" 2> "$folder/error" || ended=$?
    [ "$ended" = "$status" ] && [ ! -s "$folder/counts" ] && [ "$(wc -l < "$folder/error")" = 1 ] ||
        fail "the input '$1' is not refused as it should be"
}
