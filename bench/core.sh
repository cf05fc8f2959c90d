#!/usr/bin/env bash
# core.sh: times the cluster core alone: packets of 100,000 flows on one node with a table of 65,536 entries, two events a
# packet. Twice the events should take twice the time. Then the same with packets of 1,000 flows, and with the other tables.
source "$(dirname "$(readlink -f "${BASH_SOURCE[0]}")")/common.sh"
build bench_core
for packets in 250000 500000 1000000; do
    echo "$((packets * 2)) events: $(seconds "$ours" "$packets" 100000) s"
done
# A plain table searches its entries from the front: of many flows it would take minutes.
for shape in "place 100000" "lru 100000" "place 1000" "lru 1000" "plain 1000"; do
    read -r table flows <<<"$shape"
    echo "1000000 events of $flows flows, table $table: $(seconds "$ours" 500000 "$flows" 1 1 100 0 "$table") s"
done
