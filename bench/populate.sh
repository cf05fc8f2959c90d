#!/usr/bin/env bash
# populate.sh: times `populate` alone beside a C program of the common algorithm, at 65537 slots, and prints the ratio of
# the best runs; then names of weights from 1 to 16 beside names that all count once. Start-up is taken off: each program runs once with few tables and once with many.
source "$(dirname "$(readlink -f "${BASH_SOURCE[0]}")")/common.sh"
build bench_populate
cc -O2 -o "$work/peer" "$top/bench/populate.c"
for names in 3 200 4096; do
    [ "$("$ours" "$names" 1)" = "$("$work/peer" "$names" 1)" ] && same=equal || same=DIFFERENT
    a=$(best "$ours" "$names" 201) b=$(best "$ours" "$names" 1)
    c=$(best "$work/peer" "$names" 201) d=$(best "$work/peer" "$names" 1)
    awk -v a="$a" -v b="$b" -v c="$c" -v d="$d" -v n="$names" -v s="$same" \
        'BEGIN { printf "populate 65537 x %s: program %.3f ms, C %.3f ms, ratio %.2f, tables %s\n", n, (a - b) * 5, (c - d) * 5, (a - b) / (c - d), s }'
done
[ "$("$ours" 4096 1 1)" = "$("$work/peer" 4096 1 1)" ] && same=equal || same=DIFFERENT
a=$(best "$ours" 4096 201 1) b=$(best "$ours" 4096 1 1)
c=$(best "$ours" 4096 201) d=$(best "$ours" 4096 1)
awk -v a="$a" -v b="$b" -v c="$c" -v d="$d" -v s="$same" \
    'BEGIN { printf "populate 65537 x 4096: weighed %.3f ms, not weighed %.3f ms, ratio %.2f, tables %s\n", (a - b) * 5, (c - d) * 5, (a - b) / (c - d), s }'
