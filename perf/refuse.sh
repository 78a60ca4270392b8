#!/usr/bin/env bash
# Refuses one allocation after the other: `step` on the smallest guest, on one that is written while it is copied and on
# the usual one, and `load` of a stream of each version. Each run ends with 6 and has written first parts of what it
# writes where none is refused, in the order stream, image, report, journal; or ends as it does then, with the same
# files, where it can do without. Run it by hand, once `rt run` or `rt ci` has built the program:
#   perf/refuse.sh [PROGRAM]
set -eu
here="$(cd "$(dirname "$0")" && pwd)"
program="$(realpath "${1:-$here/../crates/dirtyring_cli/out/dirtyring_cli}")"
folder="$(mktemp -d /tmp/refuse.XXXXXX)"
trap 'rm -rf "$folder"' EXIT
${CC:-cc} -shared -fPIC -O1 -o "$folder/refuse.so" "$here/refuse_memory.c"
cd "$folder"

fail() {
    echo "perf/refuse.sh: $*" >&2
    exit 1
}
# One command on an input, into files of this name, with the allocation of this number refused, if one is given; `code`
# is its exit code.
command_on() {
    local name=$1 command=$2 input=$3 how=("$program")
    [ -z "${4-}" ] || how=(env "REFUSE=$4" "LD_PRELOAD=$folder/refuse.so" "$program")
    code=0
    rm -f "$name".*
    case $command in
        step)
            "${how[@]}" step --in "$input" --stream "$name.stream" --image "$name.image" --journal "$name.journal" \
                > "$name.report" 2> error || code=$?
            ;;
        load) "${how[@]}" load --in "$input" --image "$name.image" > "$name.report" 2> error || code=$? ;;
    esac
}
# The files of a run are first parts of the whole ones, and none is begun before the one before it is whole.
begins_alike() {
    local file at short=
    for file in stream image report journal; do
        [ -e "whole.$file" ] || continue
        at=0
        [ -e "cut.$file" ] && at=$(stat -c %s "cut.$file")
        [ "$at" = 0 ] || [ -z "$short" ] || return 1
        [ "$at" = 0 ] || cmp -s -n "$at" "cut.$file" "whole.$file" || return 1
        [ "$at" = "$(stat -c %s "whole.$file")" ] || short=yes
    done
}
same_files() {
    local file
    for file in stream image report journal; do
        [ -e "whole.$file" ] || continue
        cmp -s "cut.$file" "whole.$file" || return 1
    done
}
# Refuses each allocation of a command on an input.
sweep() {
    local number=0 wants=0 without=0
    command_on whole "$1" "$2"
    [ "$code" = 0 ] || fail "$1 $2: exit code $code: $(cat error)"
    while :; do
        number=$((number + 1))
        : > refused
        exec 9> refused
        command_on cut "$1" "$2" "$number"
        exec 9>&-
        [ -s refused ] || break
        case $code in
            6) wants=$((wants + 1)); begins_alike || fail "$1 $2: allocation $number: the files are other ones" ;;
            0) without=$((without + 1)); same_files || fail "$1 $2: allocation $number: the files are other ones" ;;
            *) fail "$1 $2: allocation $number: exit code $code: $(cat error)" ;;
        esac
    done
    same_files || fail "$1 $2: with none refused the files are other ones"
    echo "$1 $(basename "$2"): $((number - 1)) allocations, of which $wants end it with 6; it does without $without"
}

for guest in smallest rounds counters; do
    sweep step "$here/../examples/$guest.guest"
done
# A stream of version 1 with a page in two rounds, and one of version 2 that `step` sent.
{
    printf 'DRSTREAM\1\0\0\0\2\0\0\0\1\0\0\0\1\0\0\0\2\0\0\0\0\0\0\0'
    head -c 4096 /dev/zero | tr '\0' a
    printf '\1\0\0\0\2\0\0\0\2\0\0\0\0\0\0\0'
    head -c 4096 /dev/zero | tr '\0' b
    printf '\3\0\0\0\2\0\0\0'
} > version1.stream
"$program" step --in "$here/../examples/counters.guest" --stream version2.stream > /dev/null
sweep load version1.stream
sweep load version2.stream
