#!/usr/bin/env bash
# embed.sh: times libmaglev's tables of 3, 200 and 4,096 names, and its slots of a million flows, beside C that does the same
# (bench/embed.c), and prints the ratios.
source "$(dirname "$(readlink -f "${BASH_SOURCE[0]}")")/common.sh"
python3 "$top/bin/library.py" "$work"
cc -O2 -o "$work/embed" -I "$top/share/include" "$top/bench/embed.c" "$work/libmaglev.a"
for names in 3 200 4096; do
    "$work/embed" "$names"
done
