#!/usr/bin/env bash
# Runs guests that are made at random in threads (`run`), and judges each journal by a plain program that was written
# from the rules alone (`plain_judge.rs`); it also compares stream and image with what the events say. Every second run
# has one core. A run that takes more than a minute fails. Run it by hand, once `rt run` or `rt ci` has built the
# program:
#   perf/stress.sh [GUESTS [SEED [PROGRAM]]]
set -eu
here="$(cd "$(dirname "$0")" && pwd)"
guests="${1:-500}"
seed="${2:-1}"
program="${3:-$here/../crates/dirtyring_cli/out/dirtyring_cli}"
folder="$(mktemp -d /tmp/stress.XXXXXX)"
trap 'rm -rf "$folder"' EXIT
rustc -O --edition 2021 -o "$folder/plain_judge" "$here/plain_judge.rs"

# A guest of this seed: up to 32 vCPUs on few pages, rings that are mostly of 4 places, up to 64 rounds, quotas, naps.
guest() {
    awk -v seed="$1" '
    function below(n) { return int(rand() * n) }
    function pick(list, parts) { return parts[1 + below(split(list, parts, " "))] }
    function page() { return base + below(pages) }
    function op(kind) {
        kind = below(8)
        if (kind < 4) printf "w %.0f %02x\n", page() * 4096 + below(4096), below(256)
        else if (kind == 4) printf "f %d %02x\n", page(), below(256)
        else if (kind == 5) printf "r %.0f\n", page() * 4096 + below(4089)
        else if (kind == 6) printf "s %.0f\n", page() * 4096 + below(4089)
        else if (below(2)) print "nap " below(1000)
        else print "a " below(1000)
    }
    BEGIN {
        srand(seed)
        ring = pick("4 4 4 8 32 256")
        reserve = 1 + below(ring - 1)
        buffer = below(ring - reserve)
        base = below(3)
        pages = 1 + below(pick("2 16 64"))
        print "dirtyguest 1\nring " ring "\nreserve " reserve "\nbuffer " buffer
        print "pace " 1 + below(pick("2 8 64")) "\nthreshold " (below(2) ? 0 : below(8))
        print "rounds " 1 + below(64) "\nquota " pick("0 0 1 100000 4000000 1000000000")
        print "slot 3 " base " " pages
        for (vcpus = pick("1 2 4 8 32 32"); vcpus > 0; vcpus--) {
            print "vcpu\nrep " 1 + below(20)
            for (n = 1 + below(10); n > 0; n--) op()
            print "end"
            for (n = below(20); n > 0; n--) op()
            print "halt"
        }
    }'
}
fail() {
    cp "$folder/guest" /tmp/stress.guest
    [ ! -e "$folder/journal" ] || cp "$folder/journal" /tmp/stress.journal
    echo "perf/stress.sh: seed $n: $* (/tmp/stress.guest, /tmp/stress.journal)" >&2
    exit 1
}
switched=0 spent=0 events=0 full=0
for ((n = seed; n < seed + guests; n++)); do
    guest "$n" > "$folder/guest"
    rm -f "$folder/stream" "$folder/image" "$folder/journal"
    cores=0-$(($(nproc) - 1))
    if [ $((n % 2)) = 1 ]; then cores=0; fi
    code=0
    timeout 60 taskset -c "$cores" "$program" run --in "$folder/guest" --stream "$folder/stream" \
        --image "$folder/image" --journal "$folder/journal" > "$folder/report" 2> "$folder/error" || code=$?
    case "$code" in
    0) switched=$((switched + 1)) ;;
    3) spent=$((spent + 1)) ;;
    *) fail "run ends with $code: $(cat "$folder/error")" ;;
    esac
    judged="$("$folder/plain_judge" "$folder/journal" "$folder/stream" "$folder/image")" || fail "$judged"
    case "$judged" in
    *switched) [ "$code" = 0 ] || fail "run ends with $code, and the guest switched over" ;;
    *) [ "$code" = 3 ] || fail "run ends with $code, and the guest did not switch over" ;;
    esac
    judged="${judged#legal: }"
    events=$((events + ${judged%% *}))
    full=$((full + $(grep -c '^x [0-9]* full$' "$folder/journal" || true)))
done
echo "$guests guests in threads: $switched switched over, $spent spent their rounds; $events events, all legal," \
    "with $full exits at a full ring"
