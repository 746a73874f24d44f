#!/usr/bin/env bash
# Times the program crates/benches: the primes of the parity of 13 variables, and the primes and then the covers of 1,000 random
# functions of 12 variables. Prints the products that were found, the seconds, the functions a second, and the KiB at the peak,
# program included. Fails where the parity takes 2 s or more.
set -euo pipefail
cd "$(dirname "$0")/../crates/benches"
rt run > out/bench.log 2>&1
program=$(find "$PWD/out" -maxdepth 2 -type f -name benches -perm -u+x | head -n 1)
for work in parity_primes primes covers; do
  functions=1000
  if [ "$work" = parity_primes ]; then functions=1; fi
  /usr/bin/time -f '%U %S %M' -o out/bench.time "$program" "$work" "$functions" > out/bench.count
  read -r name products < out/bench.count
  read -r user system kilobytes < out/bench.time
  awk -v name="$name" -v products="$products" -v functions="$functions" -v seconds="$user $system" -v kilobytes="$kilobytes" 'BEGIN {
    split(seconds, part, " ")
    total = part[1] + part[2]
    printf "%s: %d products, %.2f s", name, products, total
    if (functions > 1) printf ", %.0f functions a second", functions / total
    printf ", %d KiB\n", kilobytes
    exit name == "parity_primes" && total >= 2
  }'
done
