#!/usr/bin/env bash
# Times the program crates/benches, whose path may be given: the parity of 32 ports, through six levels of absorbed units, as one
# function, with Input ports and with Both ports. Prints the nodes that were made, the milliseconds of one of 20 runs, and the KiB
# at the peak, program, board and all included. Fails where one takes 50 ms or more, or more than 64 MiB.
set -euo pipefail
here=$(cd "$(dirname "$0")/.." && pwd)
work=$(mktemp -d)
trap 'rm -rf "$work"' EXIT
if [ $# -gt 0 ]; then
  program=$(realpath "$1")
else
  cd "$here/crates/benches"
  rt run > "$work/run.log" 2>&1
  program=$(find "$PWD/out" -maxdepth 2 -type f -name benches -perm -u+x | head -n 1)
fi
cd "$work"
failed=0
for ports in joined_pure joined_impure; do
  start=$(date +%s%N)
  for _ in $(seq 20); do "$program" "$ports" > count.txt; done
  end=$(date +%s%N)
  /usr/bin/time -f %M -o kib.txt "$program" "$ports" > count.txt
  awk -v ns="$((end - start))" -v kib="$(cat kib.txt)" '{
    printf "%s nodes, %.2f ms, %d KiB\n", $0, ns / 20 / 1000000, kib
    exit ns / 20 >= 50000000 || kib > 65536
  }' count.txt || failed=1
done
exit "$failed"
