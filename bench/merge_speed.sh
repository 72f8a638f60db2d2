#!/usr/bin/env bash
# `dabplan merge` on a day of frames of the plan of a contact, 345.6 MB, with ten seconds of a real FIC repeated, against
# md5sum on its output in the same run: the best of five runs each, alternating. Required: at most 3 times as long, and at
# most 4 MB resident.
. "$(dirname "$0")/common.sh"

program=$(release/make --program)

echo 'frames 1800000 contact 3 closed frames 1800000' >"$work/day.events"
"$program" play examples/contact_lowers_a_rate.code "$work/day.events" "$work/day.fib" >/dev/null
cat bench/samples/real_fic.fib >"$work/part"
while [ "$(stat -c %s "$work/part")" -lt 345600000 ]; do
  cat "$work/part" "$work/part" >"$work/more"
  mv "$work/more" "$work/part"
done
head -c 345600000 "$work/part" >"$work/mux.fib"
rm "$work/part"

# merged: the day, with the FIC in its room
merged() { "$program" merge "$work/day.fib" "$work/mux.fib" >"$work/merged.fib" 2>"$work/messages"; }

merged
cat "$work/messages"
digest=(md5sum "$work/merged.fib")
judge=(merged)
read -r merge md5 < <(best_of_both 5 judge digest)
/usr/bin/time -f '%M' "$program" merge "$work/day.fib" "$work/mux.fib" 2>"$work/resident" >/dev/null
resident=$(grep -E '^[0-9]+$' "$work/resident" | tail -n 1)
ratio=$((merge * 1000 / md5))
echo "merge: $((merge / 1000)) ms, md5sum $((md5 / 1000)) ms: $(thousandths "$ratio") times (at most 3), $resident KB resident"
if [ "$ratio" -gt 3000 ] || [ "$resident" -gt 4096 ]; then
  echo "merge: over what is wanted"
  exit 1
fi
