#!/usr/bin/env bash
# Times `list` on a 22V10 whose rows are all in use, and on fuse files of 1 MiB: the least of several runs, beside `wc` on
# the same file. Fails where the first takes 10 ms or more, or one of the others more than three times `wc` and 20 ms, or
# more than 32 MiB. The program's path may be given.
source "$(dirname "$0")/timing.sh"

# every row with each second column
{
  printf '\x02*\nQF5892*\nF0*\n'
  for line in $(seq 0 131); do printf 'L%04d %s*\n' $((44 * line)) 01101010101010010110101001101001011010010110; done
  printf '\x030000\n'
} > full.jed
row 'a full 22V10 listed' 0 10 32768 list full GAL22V10

# a fuse file of 1,048,576 bytes: these fields again and again, and then those of a chip of 2,048 fuses
filled() {
  local name=$1 field=$2
  { printf '\x02*'; head -c 1048540 < <(yes "$field" | tr -d '\n'); printf '*QF2048*F0*C0*\x030000\n'; } > "$name.jed"
  truncate -s 1048576 "$name.jed"
}
filled stars '*'
filled blanks ' '
filled same 'L7 0*'
filled rows 'L0000 00000000000000000000000000000000*'
filled sums 'C0*'
filled notes 'N any text that an assembler writes here*'
for name in stars blanks same rows sums notes; do
  read -r wc_ms _ <<< "$(least 0 wc "$name.jed")"
  status=0
  "$program" list "$name" PAL16L8 > out.txt || status=$?
  row "a fuse file of 1 MiB of $name ($(head -c 60 out.txt | head -n 1)), wc $wc_ms ms" "$status" \
    "$(awk -v t="$wc_ms" 'BEGIN { print 3 * t + 20 }')" 32768 list "$name" PAL16L8
done
exit "$failed"
