#!/usr/bin/env bash
# Playing 1,000,000 frames into a file on a RAM disk, against md5sum of that file in the same run: the best of twenty runs
# each, alternating. A small plan, of one programme, and a large one, of 64 sub-channels, 64 services of 5 components and
# 64 packet components, with a swap every 300 frames. Required: at most 0.5 times md5sum for the small plan, 1.0 times for
# the large one; at most 8 MB of memory, the same for 10,000,000 frames.
. "$(dirname "$0")/common.sh"
ram=$(mktemp -d /dev/shm/play_file_speed.XXXXXX)
trap 'rm -rf "$work" "$ram"' EXIT
failed=0

# large_plan: a code file. Sub-channel 63 moves back and forth, each time after a notice of 248 frames.
large_plan() {
  awk '
  function instr(hexadecimal) { printf "%04X%s", ++line, hexadecimal }
  BEGIN {
    printf "44414250" "01" "E1C5" "3C" "F8" "14" "0001" "0001" "0009" "404040"
    for (sub_channel = 0; sub_channel < 64; sub_channel++) printf "%02X%04X00040008", sub_channel, 4 * sub_channel
    for (service = 0; service < 64; service++) {
      printf "00%04X05", 256 * service
      for (component = 0; component < 5; component++) printf "003F%02X", (service + component) % 64
    }
    for (packet = 0; packet < 64; packet++) printf "%04X003C05%04X", packet, packet + 1
    printf "000000000000" "0000000000" "00" "03"
    for (round = 0; round < 2; round++) {
      instr(sprintf("123F%04X", 253 - round))
      instr("0400F8")
      instr("06")
      instr("010034")
    }
    instr("210000")
  }' | xxd -r -p
}

# memory COMMAND..: the most memory that the command takes, in KB
memory() {
  /usr/bin/time -f '%M' "$@" 2>"$work/resident" >/dev/null
  tail -n 1 "$work/resident"
}

# measure NAME CODE MOST: plays the code, and prints its time in thousandths of that of md5sum, at most this many
measure() {
  local name=$1 code=$2 most=$3 play md5 ratio small big
  local frames=("$program" play "$code" "$work/million.events" "$ram/out.fib") digest=(md5sum "$ram/out.fib")
  read -r play md5 < <(best_of_both 20 frames digest)
  ratio=$((play * 1000 / md5))
  small=$(memory "$program" play "$code" "$work/million.events" "$ram/out.fib")
  rm "$ram/out.fib"
  big=$(memory "$program" play "$code" "$work/ten.events" /dev/null)
  echo "$name plan: play $play us, md5sum $md5 us: $(thousandths "$ratio") times; memory $small KB, of ten times the frames $big KB"
  if [ "$ratio" -gt "$most" ]; then
    echo "$name plan: more than $(thousandths "$most") times md5sum"
    failed=1
  fi
  if [ "$small" -gt 8192 ] || [ "$big" -gt 8192 ]; then
    echo "$name plan: more than 8 MB"
    failed=1
  fi
}

program=$(release/make --program)
large_plan >"$work/large.code"
echo 'frames 1000000' >"$work/million.events"
echo 'frames 3600000 frames 3600000 frames 2800000' >"$work/ten.events"
measure small examples/contact_lowers_a_rate.code 500
measure large "$work/large.code" 1000
exit "$failed"
