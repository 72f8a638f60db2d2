#!/usr/bin/env bash
# Drives a plan for an hour of frames, line by line, kills it on the way, and resumes it: the output before and
# after is, byte for byte, that of 'play' for the same lines. It runs as fast as it can; a multiplexer would send
# 'frames 1' every 24 ms.
#   examples/live_hour.sh [FRAME]     kills it when the lines have reached this frame, default 60000
set -euo pipefail
dabplan=$(cd "$(dirname "$0")/.." && pwd)/dabplan
if [ ! -f "$dabplan" ]; then dabplan=dabplan; fi
code=$(cd "$(dirname "$0")" && pwd)/contact_lowers_a_rate.code
killed=${1:-60000}
hour=150000
work=$(mktemp -d)
trap 'rm -rf "$work"' EXIT
cd "$work"

# The lines from one frame of the hour to another: contact 3 is closed and opened once per minute.
lines() {
  local frame
  for ((frame = $1; frame < $2; frame++)); do
    case $((frame % 2500)) in
      500) echo 'contact 3 closed' ;;
      1500) echo 'contact 3 open' ;;
    esac
    echo 'frames 1'
  done
}

# The plan runs; each line goes into today.log, and then to the plan. Then the plan is killed.
mkfifo lines
"$dabplan" live "$code" <lines >hour.fib &
run=$!
exec 3>lines
lines 0 "$killed" | tee today.log >&3
kill -KILL "$run"
wait "$run" 2>killed.txt || true
exec 3>&-

# It is resumed: the lines of today.log are played again, without the frames that are in hour.fib, and then it
# continues.
frames=$(($(stat -c %s hour.fib) / 96))
truncate -s $((96 * frames)) hour.fib
{
  cat today.log
  lines "$killed" "$hour" | tee rest.log
} | "$dabplan" live "$code" --skip "$frames" >>hour.fib
cat rest.log >>today.log

"$dabplan" play "$code" today.log play.fib
cmp hour.fib play.fib
echo "the same frames, of a plan that was killed and taken up again"
