#!/usr/bin/env bash
# publish.sh: times versions that are published while packets flow: 1,000,000 offers of 100,000 flows through 1 and 2 workers, and
# versions of 256 services with 200 members each and tables of 65,537 slots, in each of which one service has other addresses
# than before. Told are the time of a publish, as the difference of a run with 1,001 versions and one with 2, and what a worker
# takes for a packet between the calls of the gate in both runs; and the time of a publish where no packets flow. Of three runs
# the fastest counts. It takes about 6 GB.
source "$(dirname "$(readlink -f "${BASH_SOURCE[0]}")")/common.sh"
build bench_publish

# window OFFERS WORKERS VERSIONS: nanoseconds from the first version to the last, and those of a packet.
window() {
    for _ in 1 2 3; do
        "$ours" "$1" "$2" "$3" 256 200 times |
            awk '$1 == "window" { window = $2 } $1 == "busy" { busy = $3 ? $2 / $3 : 0 } END { print window, busy }'
    done | sort -g | head -n 1
}

for workers in 1 2; do
    read -r few quiet < <(window 1000000 "$workers" 2)
    read -r many busy < <(window 1000000 "$workers" 1001)
    awk -v w="$workers" -v a="$many" -v b="$few" -v c="$busy" -v d="$quiet" \
        'BEGIN { printf "%d workers: %.3f ms a publish, %.0f ns a packet, %.0f ns without\n", w, (a - b) / 999 / 1e6, c, d }'
done
read -r few _ < <(window 0 1 2)
read -r many _ < <(window 0 1 1001)
awk -v a="$many" -v b="$few" 'BEGIN { printf "no packets: %.3f ms a publish\n", (a - b) / 999 / 1e6 }'
