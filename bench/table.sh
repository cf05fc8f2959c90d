#!/usr/bin/env bash
# table.sh: times `table --size 65537 --hash fnv` of 3, 200 and 4,096 names beside a C program (bench/table.c). Of fifteen whole
# runs each, in turns, the fastest counts.
source "$(dirname "$(readlink -f "${BASH_SOURCE[0]}")")/common.sh"
. "$top/bin/program.sh"
maglev=$program
cc -O2 -o "$work/peer" "$top/bench/table.c"
for count in 3 200 4096; do
    names=$(seq -f 'b%g' 1 "$count")
    ours=("$maglev" table --size 65537 --hash fnv $names) theirs=("$work/peer" 65537 $names)
    cmp -s <("${ours[@]}") <("${theirs[@]}") && same=equal || same=DIFFERENT
    rm -f "$work"/times.*
    for _ in 1 2 3 4 5 6 7 8 9 10 11 12 13 14 15; do
        seconds "${ours[@]}" >>"$work/times.ours"
        seconds "${theirs[@]}" >>"$work/times.theirs"
    done
    a=$(sort -g "$work/times.ours" | head -n 1) b=$(sort -g "$work/times.theirs" | head -n 1)
    awk -v a="$a" -v b="$b" -v n="$count" -v s="$same" \
        'BEGIN { printf "table 65537 x %s: program %.3f s, C %.3f s, ratio %.2f, output %s\n", n, a, b, a / (b > 0 ? b : 0.001), s }'
done
