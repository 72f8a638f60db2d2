#!/usr/bin/env bash
# `dabplan check` on a day of frames, 345.6 MB, against md5sum on the same file in the same run: the best of five runs
# each, alternating. Required: at most 3 times as long, and at most 4 MB resident.
#   contact   the plan of a contact that is closed at noon
#   full      64 sub-channels, 64 services and 64 packet components, for a tenth of a day
# With BEFORE=PROGRAM the time is also compared with that of an earlier program on the same file in the same run: at most
# 5 % more.
. "$(dirname "$0")/common.sh"

program=$(release/make --program)
failed=0

# measure NAME FILE: the ratio in thousandths, and the memory
measure() {
  local name=$1 file=$2 check md5 ratio resident
  local judge=("$program" check "$file") digest=(md5sum "$file")
  read -r check md5 < <(best_of_both 5 judge digest)
  /usr/bin/time -f '%M' "$program" check "$file" 2>"$work/resident" >/dev/null || true
  resident=$(grep -E '^[0-9]+$' "$work/resident" | tail -n 1)
  ratio=$((check * 1000 / md5))
  echo "check $name: $((check / 1000)) ms, md5sum $((md5 / 1000)) ms: $(thousandths "$ratio") times (at most 3), $resident KB resident"
  if [ "$ratio" -gt 3000 ] || [ "$resident" -gt 4096 ]; then failed=1; fi
  if [ -n "${BEFORE:-}" ]; then compare "$name" "$file"; fi
}

# compare NAME FILE: the ratio to an earlier program
compare() {
  local now before
  local judge=("$program" check "$2") earlier=("$BEFORE" check "$2")
  read -r now before < <(best_of_both 5 judge earlier)
  echo "check $1: $((now / 1000)) ms, before $((before / 1000)) ms: $(thousandths "$((now * 1000 / before))") times (at most 1.05)"
  if [ "$((now * 1000 / before))" -gt 1050 ]; then failed=1; fi
}

echo 'frames 1800000 contact 3 closed frames 1800000' >"$work/day.events"
"$program" play examples/contact_lowers_a_rate.code "$work/day.events" "$work/day.fib" >/dev/null
measure contact "$work/day.fib"
rm "$work/day.fib"
python3 bench/fib_streams.py full 1080000 "$work/stream"
measure full "$work/stream"
if [ "$failed" -ne 0 ]; then
  echo "check: over what is wanted"
  exit 1
fi
