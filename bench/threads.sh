#!/usr/bin/env bash
# threads.sh: times a node on threads: 1,000,000 offers of 100,000 flows through 1, 2 and 4 workers with rings of 1,024
# places, beside the core's run over the same events on one thread. A driver that is faster than its workers finds the
# rings full, and those packets are dropped: so the packets that were sent are told too. Of five runs the fastest counts.
source "$(dirname "$(readlink -f "${BASH_SOURCE[0]}")")/common.sh"
build bench_threads
for workers in 1 2 4; do
    for _ in 1 2 3 4 5; do
        "$ours" 1000000 "$workers" 100000 times | awk '{ value[$1] = $2 } END { print value["threads"], value["core"], value["sent"] }'
    done | sort -n | head -n 1 | awk -v w="$workers" \
        '{ printf "%s workers: threads %.3f s, core %.3f s, ratio %.2f, sent %d\n", w, $1 / 1e6, $2 / 1e6, $1 / $2, $3 }'
done
