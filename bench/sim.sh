#!/usr/bin/env bash
# Times `sim` over 100,000 steps of the example board and of 32 PAL16R4 in a chain, and `check` of 64 chips: the least of
# several runs, beside /bin/true. Where Icarus Verilog is installed, its vvp runs the same chain. Fails where the chain takes
# 3 s or more, or more than 64 MiB, or a tenth of vvp's time or more, or where `check` takes 0.1 s or more. The program's path
# may be given.
source "$(dirname "$0")/timing.sh"
runs=3
steps=100000
cp "$here"/examples/counter/counter.* .

# a script for two ports: the clock turns at each step, the other port now and then
turns() {
  printf 'script 1\nports %s\n' "$1"
  awk -v steps="$steps" 'BEGIN { for (n = 0; n < steps; n++) print "step " (n % 2) (n % 7 < 3) }'
  echo end
}
turns 'CLK RST' > turns.sim
turns 'CLK DIN' > shifts.sim
chain chain 32
chain wide 64

row 'the counter over 100,000 steps' 0 3000 65536 sim counter turns
row 'a chain of 32 chips over 100,000 steps' 0 3000 65536 sim chain shifts
read -r chain_ms _ <<< "$(least 0 "$program" sim chain shifts)"
row '64 chips checked' 0 100 65536 check wide

if ! command -v iverilog > /dev/null || ! command -v vvp > /dev/null; then
  echo 'vvp is not installed: left out'
  exit "$failed"
fi

# the same chain in Verilog
{
  echo 'module chip(input clk, input in, output out);'
  echo '  reg q17 = 0, q16 = 0, q15 = 0, q14 = 0;'
  echo '  wire p18 = ~in;'
  echo '  assign out = ~q14;'
  echo '  always @(posedge clk) begin q17 <= ~p18; q16 <= q17; q15 <= q16; q14 <= q15; end'
  echo 'endmodule'
  echo 'module bench;'
  echo '  reg clk = 0, in = 0;'
  echo '  wire [32:0] wires;'
  echo '  assign wires[0] = in;'
  echo '  genvar i;'
  echo '  generate for (i = 0; i < 32; i = i + 1) begin : chips chip one(clk, wires[i], wires[i + 1]); end endgenerate'
  echo '  integer n;'
  echo '  initial begin'
  echo "    for (n = 0; n < $steps; n = n + 1) begin"
  echo '      clk = n % 2; in = n % 7 < 3; #1 $display("show %b%b%b", clk, in, wires[32]);'
  echo '    end'
  echo '  end'
  echo 'endmodule'
} > chain.v
iverilog -o chain.vvp chain.v
read -r vvp_ms _ <<< "$(least 0 vvp chain.vvp)"
awk -v vvp_ms="$vvp_ms" -v chain_ms="$chain_ms" 'BEGIN {
  printf "vvp takes %.0f ms for the same chain, %.1f times as long\n", vvp_ms, vvp_ms / chain_ms
  exit vvp_ms < 10 * chain_ms
}' || failed=1
exit "$failed"
