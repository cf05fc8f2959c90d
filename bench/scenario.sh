#!/usr/bin/env bash
# scenario.sh: times how long a scenario of a megabyte is read: one of 100,000 steps, and one with all its members in one
# service, which is judged as having too many. Start-up is taken off: the program reads each once and eleven times.
source "$(dirname "$(readlink -f "${BASH_SOURCE[0]}")")/common.sh"
build bench_scenario
head='format = 1\nsize = 65537\nhash = "fnv"\nscheme = "maglev"\nspread = "hash"\nworkers = 16\ncapacity = 1000\nnodes = ["10.9.0.1"]\n'
service='[[versions]]\nnumber = 1\n[[versions.services]]\nvip = "192.0.2.1"\nproto = "tcp"\nport = 80\n'
{
    printf "$head"
    printf 'steps = ["install 0 1"'
    awk 'BEGIN { for (i = 1; i < 100000; i++) printf(",\"%s\"", (i % 9 ? "take 1" : "full 0 1")) }'
    printf "]\n${service}members = [\"A@10.8.0.1\"]\n"
} >"$work/steps.toml"
{
    printf "${head}steps = []\n${service}members = ["
    awk 'BEGIN { for (i = 1; i < 52000; i++) printf("%s\"b%x@10.%d.%d.1\"", (i > 1 ? "," : ""), i, int(i / 256), i % 256) }'
    printf ']\n'
} >"$work/members.toml"
for name in steps members; do
    input=$work/$name.toml
    a=$(best "$ours" 11) b=$(best "$ours" 1)
    awk -v a="$a" -v b="$b" -v n="$name" -v s="$(wc -c <"$input")" -v r="$("$ours" 1 <"$input")" \
        'BEGIN { printf "%s: %d bytes, %s, %.1f ms\n", n, s, r, (a - b) * 100 }'
done
