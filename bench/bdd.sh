#!/usr/bin/env bash
# Times the program crates/benches: the nodes that each work on diagrams made and nanoseconds a made node, and for the random
# calls, whose nodes all stand in one graph, also the bytes a node at the peak, memo and program included.
set -euo pipefail
cd "$(dirname "$0")/../crates/benches"
rt run > out/bench.log 2>&1
program=$(find "$PWD/out" -maxdepth 2 -type f -name benches -perm -u+x | head -n 1)
for work in parity:10000 carry:10000 random:1000000; do
  /usr/bin/time -f '%U %S %M' -o out/bench.time "$program" "${work%:*}" "${work#*:}" > out/bench.count
  read -r name nodes < out/bench.count
  read -r user system kilobytes < out/bench.time
  awk -v name="$name" -v nodes="$nodes" -v seconds="$user $system" -v kilobytes="$kilobytes" 'BEGIN {
    split(seconds, part, " ")
    printf "%s: %d nodes, %.0f ns a node", name, nodes, (part[1] + part[2]) * 1e9 / nodes
    if (name == "random") printf ", %.0f bytes a node", kilobytes * 1024 / nodes
    printf "\n"
  }'
done
