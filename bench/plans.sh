#!/usr/bin/env bash
# Times the program crates/plan_rows, whose path may be given, as it reads a board and a plan and holds the one against the other: 64
# PAL16R8 with 512 registers in a chain under their one for one plan, and a cone of 32 variables. It is the least of 20 runs, beside
# /bin/true. Fails where the first takes 50 ms or more, or the second 1 s or more, or one of them more than 256 MiB. A second path
# may be that of another program, which takes `migrate BOARD NEW PLAN`; it is timed beside.
here=$(cd "$(dirname "$0")/.." && pwd)
data=$here/crates/plan_rows/data
source "$here/bench/timing.sh" "${1:-$here/crates/plan_rows/out/plan_rows}"
other=${2:-}
printf '#!/bin/sh\nexec "%s" < "$1"\n' "$program" > hold
chmod +x hold
program=$work/hold

# the registers of so many chips in a chain: in each chip pin 19 stores pin 2 and each other pin the one above it; pin 12 drives
# pin 2 of the next chip
registers() {
  local prefix=$1 chips=$2 before=DIN next i pin
  {
    printf 'board 1\nnet CLK in\nnet DIN in\nnet DOUT out\n'
    for i in $(seq $((chips - 1))); do echo "net T$i"; done
    for i in $(seq "$chips"); do echo "chip U$i PAL16R8"; done
    for i in $(seq "$chips"); do
      next=T$i
      if [ "$i" = "$chips" ]; then next=DOUT; fi
      printf "pin U$i %s\n" '1 CLK' "2 $before" '11 GND' "12 $next"
      before=$next
    done
    echo end
  } > "$prefix.net"
  {
    printf '\x02*\nQF2048*\nF0*\nL0000 %s*\n' "$(row_of 0)"
    for i in 1 2 3 4 5 6 7; do printf 'L%04d %s*\n' $((256 * i)) "$(row_of $((4 * i - 1)))"; done
    printf '\x030000\n'
  } > "$prefix.jed"
  for i in $(seq "$chips"); do cp "$prefix.jed" "$prefix.U$i.jed"; done
  {
    echo 'plan 1'
    for i in $(seq "$chips"); do echo "chip U$i GAL16V8 registered"; done
    for i in $(seq "$chips"); do
      for pin in $(seq 12 19); do echo "place U$i.$pin U$i.$pin"; done
    done
    echo end
  } > "$prefix.plan"
}

# a row of the report, whose answer is looked at first
held() {
  local name=$1 most_ms=$2 board=$3 plan=$4 wanted=$5 status=$6
  printf 'breach %s %s\n' "$board" "$plan" > held.txt
  "$program" held.txt | tail -n 1 > answer.txt
  if [ "$(cat answer.txt)" != "$wanted" ]; then
    echo "$name: $(cat answer.txt) in place of $wanted" >&2
    failed=1
  fi
  row "$name" 0 "$most_ms" 262144 held.txt
  if [ -n "$other" ]; then
    read -r ms kib <<< "$(least "$status" "$other" migrate "$board" new "$plan")"
    echo "$name, $other: $ms ms, $kib KiB"
  fi
}

registers wide 64
cp "$data"/cone32.* "$data"/cone.plan .
held '512 registers, one for one' 50 wide wide none 0
held 'a cone of 32 variables' 1000 cone32 cone 'NoInput N1 I23' 5
exit "$failed"
