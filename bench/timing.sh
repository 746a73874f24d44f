# What the scripts that time the program share; they source it, stand in a new folder, and fail where a limit is passed.
#   least STATUS COMMAND..            the least milliseconds of 20 runs that end with this status, and the KiB of one more
#   row NAME STATUS MS KIB WORDS..    runs the program, prints what it took beside /bin/true, and notes what is over
# `here` is the repository, `program` the program's path, which may be given, `failed` whether a limit was passed, `runs`
# how many runs are made.
set -euo pipefail
here=$(cd "$(dirname "${BASH_SOURCE[0]}")/.." && pwd)
program=$(realpath "${1:-$here/crates/palmig/out/palmig}")
work=$(mktemp -d)
trap 'rm -rf "$work"' EXIT
cd "$work"
failed=0
runs=20

least() {
  local wanted=$1 best='' start end status
  shift
  for _ in $(seq "$runs"); do
    status=0
    start=$(date +%s%N)
    "$@" > out.txt || status=$?
    end=$(date +%s%N)
    if [ "$status" != "$wanted" ]; then
      echo "$*: status $status in place of $wanted" >&2
      return 1
    fi
    if [ -z "$best" ] || [ $((end - start)) -lt "$best" ]; then best=$((end - start)); fi
  done
  /usr/bin/time -f %M -o kib.txt "$@" > out.txt || true
  awk -v ns="$best" -v kib="$(tail -n 1 kib.txt)" 'BEGIN { printf "%.3f %d\n", ns / 1000000, kib }'
}

row() {
  local name=$1 wanted=$2 most_ms=$3 most_kib=$4 took ms kib
  shift 4
  took=$(least "$wanted" "$program" "$@")
  read -r ms kib <<< "$took"
  awk -v name="$name" -v ms="$ms" -v kib="$kib" -v most_ms="$most_ms" -v most_kib="$most_kib" \
    -v true_ms="$true_ms" -v true_kib="$true_kib" 'BEGIN {
    within = ms <= most_ms && kib <= most_kib
    printf "%s: %.2f ms (%.1f times /bin/true), %d KiB (%.1f times /bin/true): %s\n",
      name, ms, ms / true_ms, kib, kib / true_kib, within ? "within" : "OVER"
    exit !within
  }' || failed=1
}

# the chain of PAL16R4 on one clock, of so many chips, as the board PREFIX: in each chip pin 18 has the term pin 2, pin 17
# NOT pin 18, and 16, 15 and 14 the Q of the register before; pin 14 drives pin 2 of the next chip
chain() {
  local prefix=$1 chips=$2 before=DIN next i
  {
    echo 'board 1'
    printf 'net %s\n' 'CLK in' 'DIN in' 'DOUT out'
    for i in $(seq $((chips - 1))); do echo "net T$i"; done
    for i in $(seq "$chips"); do echo "chip U$i PAL16R4"; done
    for i in $(seq "$chips"); do
      next=T$i
      if [ "$i" = "$chips" ]; then next=DOUT; fi
      printf "pin U$i %s\n" '1 CLK' "2 $before" '11 GND' "14 $next"
      before=$next
    done
    echo end
  } > "$prefix.net"
  for i in $(seq "$chips"); do
    {
      printf '\x02*\nQF2048*\nF0*\nL0256 %s*\n' "$(ones 32)"
      printf 'L%04d %s*\n' 288 "$(row_of 0)" 512 "$(row_of 7)" 768 "$(row_of 11)" 1024 "$(row_of 15)" 1280 "$(row_of 19)"
      printf '\x030000\n'
    } > "$prefix.U$i.jed"
  done
}

# so many ones, and a row of 32 whose one intact fuse is at this column
ones() { printf '%0*d' "$1" 0 | tr 0 1; }
row_of() { ones 32 | sed "s/./0/$(($1 + 1))"; }

read -r true_ms true_kib <<< "$(least 0 /bin/true)"
printf '/bin/true: %.2f ms, %d KiB\n' "$true_ms" "$true_kib"
