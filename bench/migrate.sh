#!/usr/bin/env bash
# Times the program on a board of one chip, on one of 32 chips with registers, on one of 64 under a handed plan, and on a board
# file of 1 MiB that is refused: the least of several runs, beside /bin/true. Fails where the first takes more than three times
# /bin/true and 5 ms, the second or the third more than 1 s, the last more than 0.1 s, or any more than 64 MiB. The program's path
# may be given, and a second path, of another program that takes the same words: it is timed under the same plan.
source "$(dirname "$0")/timing.sh"
cp "$here"/crates/palmig/data/b1.* .
# a board whose wiring has 1,048,576 bytes
head -c 1048576 < <(yes 'net A in') > wide.net
chain chain 32
chain large 64
{
  echo 'plan 1'
  for i in $(seq 64); do echo "chip U$i GAL16V8 registered"; done
  for i in $(seq 64); do for pin in 14 15 16 17 18; do echo "place U$i.$pin U$i.$pin"; done; done
  echo end
} > same.plan

row 'a board of one chip moved' 0 "$(awk -v t="$true_ms" 'BEGIN { print 3 * t + 5 }')" 65536 migrate b1 n1
row 'a board of 32 chips moved' 0 1000 65536 migrate chain moved
row 'a board of 64 chips under a handed plan' 0 1000 65536 migrate large planned same
if [ -n "${2:-}" ]; then
  read -r ms kib <<< "$(least 0 "$2" migrate large planned same)"
  echo "the same, $2: $ms ms, $kib KiB"
fi
row 'a board file of 1 MiB refused' 4 100 65536 migrate wide n2
exit "$failed"
