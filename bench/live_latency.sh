#!/usr/bin/env bash
# The time from a line of one frame to its bytes, for a plan at the limits: 64 sub-channels, 64 services of 5 components and
# 64 packet components, 251 or 252 instructions in the frame of each commit, and a swap every 300 frames. 3,000 lines, each
# given when the frame of the one before has arrived; for each line the shortest of five runs, so that other load on the
# machine does not count. Required: at most 1 ms for every line.
. "$(dirname "$0")/common.sh"

# large_plan: a code file. Sub-channel 63 is moved back and forth 124 times before each commit.
large_plan() {
  awk '
  function instr(hexadecimal) { printf "%04X%s", ++line, hexadecimal }
  BEGIN {
    moves = 124
    printf "44414250" "01" "E1C5" "3C" "F8" "FF" "0001" "0001" "%04X" "404040", 2 * (2 * moves + 4) + 1
    for (sub_channel = 0; sub_channel < 64; sub_channel++) printf "%02X%04X00040008", sub_channel, 4 * sub_channel
    for (service = 0; service < 64; service++) {
      printf "00%04X05", 256 * service
      for (component = 0; component < 5; component++) printf "003F%02X", (service + component) % 64
    }
    for (packet = 0; packet < 64; packet++) printf "%04X003C05%04X", packet, packet + 1
    printf "000000000000" "0000000000" "00" "FD"
    for (round = 0; round < 2; round++) {
      for (move = 0; move < 2 * moves; move++) instr(sprintf("123F%04X", 253 + move % 2))
      instr(sprintf("123F%04X", 253 - round))
      instr("0400F8")
      instr("06")
      instr("010034")
    }
    instr("210000")
  }' | xxd -r -p
}

program=$(release/make --program)
large_plan >"$work/large.code"
"$program" verify "$work/large.code"
python3 - "$program" "$work/large.code" <<'PYTHON'
import subprocess
import sys
import time

LINES = 3000


def times():
    """Of each line the seconds until the bytes of its frame are there."""
    found = []
    with subprocess.Popen([sys.argv[1], "live", sys.argv[2]], stdin=subprocess.PIPE, stdout=subprocess.PIPE, bufsize=0) as job:
        for _ in range(LINES):
            start = time.perf_counter()
            job.stdin.write(b"frames 1\n")
            left = 96
            while left > 0:
                left -= len(job.stdout.read(left))
            found.append(time.perf_counter() - start)
        job.stdin.close()
    return found


best = sorted(min(line) for line in zip(*(times() for _ in range(5))))
middle, most = best[LINES // 2], best[-1]
print(f"a line of one frame: {middle * 1e6:.0f} us in the middle, {most * 1e6:.0f} us at most")
sys.exit(most > 0.001)
PYTHON
