#!/usr/bin/env bash
# run.sh: times `run` over 1,000,000 packets of 100,000 flows, with 1, 2 and 4 nodes of 1, 2 and 4 workers and rings of
# 65,536 places, beside `simulate` on the same scenario. A driver that is faster than its workers finds the rings full, and
# those packets are dropped: so the packets that were sent are told too. Of five runs the fastest counts.
source "$(dirname "$(readlink -f "${BASH_SOURCE[0]}")")/common.sh"
. "$top/bin/program.sh"
maglev=$program
python3 "$top/bench/many_clients.py" "$work/input.pcap" 1000000 100000

# cluster NODES WORKERS: prints a scenario in which every node gets its share of the capture.
cluster() {
    local addresses='"10.9.0.1"' installs='"install 0 1"' node
    for ((node = 1; node < $1; node++)); do
        addresses+=", \"10.9.0.$((node + 1))\""
        installs+=", \"install $node 1\""
    done
    scenario "$2" 100000 "$addresses" "$installs, \"take 1000000\"" "ring = 65536"
}

for nodes in 1 2 4; do
    for workers in 1 2 4; do
        cluster "$nodes" "$workers" >"$work/scenario.toml"
        words=("$work/scenario.toml" "$work/input.pcap" "$work/sent.pcap")
        report=$("$maglev" run "${words[@]}") || { echo "run failed: $report" >&2; exit 1; }
        sent=$(awk '$1 == "forwarded" { print $2 }' <<<"$report")
        a=$(best "$maglev" run "${words[@]}") b=$(best "$maglev" simulate "${words[@]}")
        awk -v n="$nodes" -v w="$workers" -v a="$a" -v b="$b" -v s="$sent" -v v="$(tail -n 1 <<<"$report")" \
            'BEGIN { printf "%s nodes of %s workers: run %.3f s, simulate %.3f s, ratio %.2f, sent %d, %s\n", n, w, a, b, a / b, s, v }'
    done
done
