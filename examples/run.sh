#!/usr/bin/env bash
# Runs a built program on counter/ and on each folder of refused/, and shows what isn't as expected. The program's path may be given.
set -euo pipefail
here=$(cd "$(dirname "$0")" && pwd)
program=$(realpath -m "${1:-$here/../crates/palmig/out/palmig}")
[ -x "$program" ] || { echo "there is no program $program"; exit 1; }
work=$(mktemp -d)
trap 'rm -rf "$work"' EXIT
failed=0

# expect ANSWER STATUS WORDS: a call of these words, here, prints the file ANSWER and ends with STATUS
expect() {
  local answer=$1 status=$2 ended=0
  shift 2
  "$program" "$@" > "$work/printed" || ended=$?
  if [ "$ended" != "$status" ] || ! cmp -s "$answer" "$work/printed"; then
    failed=1
    echo "${folder#"$here"/}: palmig $*: status $ended, expected $status"
    diff "$answer" "$work/printed" | head -n 20 || true
  fi
}

# enter FOLDER: goes into a copy of it
enter() {
  folder=$1
  cp -r "$folder" "$work/${folder##*/}"
  cd "$work/${folder##*/}"
}

enter "$here/counter"
expect expected/list.txt 0 list counter.U1 PAL16R4
expect expected/check.txt 0 check counter
expect expected/sim.txt 0 sim counter count
expect expected/migrate.txt 0 migrate counter new

# the new board shows the same
expect expected/sim.txt 0 sim new count

# and so does that of a plan by hand, on one chip
expect expected/planned.txt 0 migrate counter one_chip one
cmp one_chip.net expected/planned.net || failed=1
expect expected/sim.txt 0 sim one_chip count

# as many steps as a script may have
{ printf 'script 1\nports CLK RST\n'; seq 100000 | sed 's/.*/step 00/'; echo end; } > most.sim
{ head -n 1 expected/sim.txt; seq 100000 | sed 's/.*/show 001110/'; } > most.txt
expect most.txt 0 sim counter most

count=0
for each in "$here"/refused/*/; do
  enter "${each%/}"
  if [ -f make.sh ]; then sh make.sh; fi
  read -r -a words < call
  expect answer "$(cat status)" "${words[@]}"
  count=$((count + 1))
done
[ $failed = 0 ] && echo "the counter and $count refusals: all as expected"
exit $failed
