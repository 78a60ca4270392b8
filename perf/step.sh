#!/usr/bin/env bash
# Measures `step` into four files on a guest of 8 vCPUs and 16,384 pages, with 20,384 copies, against a plain
# program that does the same; all four files are compared. Run it by hand on a quiet machine, once `rt run` or
# `rt ci` has built the program:
#   perf/step.sh [PROGRAM [FOLDER]]
# Or the same on a guest of 32 vCPUs, each of which leaves the guest with a full ring after each page that it writes, so
# that all rings are reaped again and again:
#   perf/step.sh soft [PROGRAM [FOLDER]]
# Or compares the files of both programs on so many small guests that are made at random, from this seed on:
#   perf/step.sh agree N [SEED [PROGRAM]]
set -eu
here="$(cd "$(dirname "$0")" && pwd)"
mode=large
if [ "${1:-}" = soft ]; then
    mode=soft
    shift
fi
if [ "${1:-}" = agree ]; then
    mode=agree
    guests="${2:?how many guests}"
    seed="${3:-1}"
    shift $(($# < 3 ? $# : 3))
fi
program="${1:-$here/../crates/dirtyring_cli/out/dirtyring_cli}"
folder="$(mktemp -d "${2:-/tmp}/bench.XXXXXX")"
trap 'rm -rf "$folder"' EXIT
rustc -O --edition 2021 -o "$folder/plain_step" "$here/plain_step.rs"

fail() {
    echo "perf/step.sh: $*" >&2
    exit 1
}
# 8 vCPUs that paint the pages, each its own 2,048, and are paced by it. After the start each stores eight
# bytes in 500 of its pages, and leaves the guest twice with a full ring. So 16,384 pages are copied in the
# first round and 4,000 in the second.
large_guest() {
    awk -v vcpus=8 -v pages=16384 'BEGIN {
        print "dirtyguest 1\nring 256\nreserve 16\nbuffer 16\npace 2048\nthreshold 0\nrounds 4\nquota 0"
        print "slot 0 0 " pages
        own = pages / vcpus
        for (v = 0; v < vcpus; v++) {
            print "vcpu"
            for (i = 0; i < own; i++) printf "f %d %02x\n", v * own + i, (v * 31 + i) % 256
            for (i = 0; i < 500; i++) printf "w %d %016x\n", (v * own + i * 4) * 4096 + i * 8, v * 1000 + i
            print "halt"
        }
    }'
}
# 32 vCPUs with rings of four entries, three of which are reserved, so that one entry is as many as there may be. After
# the start each makes 3,000 stores in pages of its own, and leaves the guest with a full ring after each of them.
soft_guest() {
    awk -v vcpus=32 -v own=64 'BEGIN {
        print "dirtyguest 1\nring 4\nreserve 3\nbuffer 0\npace 3000\nthreshold 0\nrounds 8\nquota 0"
        print "slot 0 0 " vcpus * own
        for (v = 0; v < vcpus; v++) {
            print "vcpu\nrep 3000\na 1\nend"
            for (i = 0; i < 3000; i++) printf "w %d %02x\n", (v * own + i % own) * 4096, 1 + i % 255
            print "halt"
        }
    }'
}
# A small guest of this seed: some slots and vCPUs, settings that make the rings full, the rounds many or few
# and the throttles long or none, all ops, and now and then a comment, a blank or a capital letter that the
# canonical text has not. One in four has no quota, and a pace that no script reaches.
random_guest() {
    awk -v seed="$1" '
    BEGIN { hex = "0123456789abcdefABCDEF" }
    function below(n) { return int(rand() * n) }
    function pick(list, parts) { return parts[1 + below(split(list, parts, " "))] }
    function digits(n, all, text) {
        for (text = ""; n > 0; n--) text = text substr(all, 1 + below(length(all)), 1)
        return text
    }
    function say(text) {
        if (below(20) == 0) print pick("# #w \r")
        if (below(20) == 0) print ""
        if (below(20) == 0) gsub(/ /, " \t ", text)
        print (below(20) ? "" : " ") text (below(20) ? "" : "\r")
    }
    # an address from which so many bytes lie in one page
    function address(len, page, at) {
        page = below(pages)
        at = below(3) ? below(4097 - len) : pick("0 " 4096 - len)
        return sprintf("%.0f", frame[page] * 4096 + at)
    }
    function op(kind, len) {
        kind = below(8)
        if (kind < 3) { len = 1 + below(8); say("w " address(len) " " digits(2 * len, hex)) }
        else if (kind == 3) say("f " sprintf("%.0f", frame[below(pages)]) " " digits(2, hex))
        else if (kind == 4) say("r " address(8))
        else if (kind == 5) say("a " digits(1 + below(19), "0123456789"))
        else if (kind == 6) say("s " address(8))
        else say("nap " below(10001))
    }
    function slots(count, n, i, k, base, turn) {
        base = pick("0 0 7 1000000000")
        for (n = 0; n < count; n++) {
            size[n] = 1 + below(4)
            start[n] = base
            base += size[n] + pick("0 1 5000000")
        }
        # the slots stand in the order of their frames, but for the one that comes first
        turn = below(count)
        for (n = 0; n < count; n++) {
            i = (n + turn) % count
            say("slot " (i * 7 + turn) " " sprintf("%.0f", start[i]) " " size[i])
            for (k = 0; k < size[i]; k++) frame[pages++] = start[i] + k
        }
    }
    BEGIN {
        srand(seed)
        halts = below(4) == 0
        ring = pick("4 8 16 32")
        reserve = 1 + below(ring - 1)
        buffer = below(ring - reserve)
        say("dirtyguest 1")
        say("ring " ring)
        say("reserve " reserve)
        say("buffer " buffer)
        say("pace " (halts ? 200000 : 1 + below(below(2) ? 4 : 30)))
        say("threshold " (below(2) ? 0 : below(6)))
        say("rounds " (below(4) ? 8 + below(57) : 1 + below(4)))
        say("quota " (halts ? 0 : pick("0 0 1 100000 3900000 8000000 40000000 1000000000")))
        slots(1 + below(4))
        for (vcpus = 1 + below(4); vcpus > 0; vcpus--) {
            say("vcpu")
            for (n = below(30); n > 0; n--) {
                if (below(8)) { op(); continue }
                say("rep 0" 1 + below(6))
                for (i = 1 + below(5); i > 0; i--) op()
                say("end")
            }
            say("halt")
        }
    }'
}
# Each program over a guest into its four files; what it ends with is kept.
step() {
    code=0
    "$program" step --in "$folder/$1" --stream "$folder/step.stream" --image "$folder/step.image" \
        --journal "$folder/step.journal" > "$folder/step.report" 2> "$folder/error" || code=$?
}
plain() {
    code=0
    "$folder/plain_step" "$folder/$1" "$folder/plain.stream" "$folder/plain.image" "$folder/plain.report" \
        "$folder/plain.journal" || code=$?
}
# The files of both programs are the same.
same_files() {
    local port
    for port in stream image report journal; do
        cmp "$folder/step.$port" "$folder/plain.$port" || return 1
    done
}
ours=step
. "$here/compare.sh"
measure() {
    "$mode"_guest > "$folder/guest"
    step guest
    [ "$code" = 0 ] || [ "$code" = 3 ] || fail "step ends with $code: $(cat "$folder/error")"
    best_of_nine guest
    print_best
    printf ', '
    if [ $((best_ours * 2)) -lt $((best_plain * 3)) ]; then echo 'below 1.5'; else echo 'not below 1.5'; fi
    step guest
    plain guest
    same_files || fail 'the files are not the same'
    echo "the same files, with $(grep -c '^copy ' "$folder/step.journal") copies"
}
agree() {
    local n ended spent=0
    for ((n = seed; n < seed + guests; n++)); do
        random_guest "$n" > "$folder/guest"
        rm -f "$folder"/step.* "$folder"/plain.*
        step guest
        ended=$code
        plain guest
        if [ "$ended" != "$code" ] || ! same_files; then
            cp "$folder/guest" "/tmp/disagrees.guest"
            fail "seed $n: step ends with $ended, the plain program with $code (/tmp/disagrees.guest)"
        fi
        if [ "$ended" = 3 ]; then spent=$((spent + 1)); fi
    done
    echo "the same files for $guests guests, of which $spent spent their rounds"
}
if [ "$mode" = agree ]; then agree; else measure; fi
