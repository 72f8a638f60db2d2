#!/usr/bin/env bash
# One frame of the example configuration: time and memory of a run of `dabplan frame`.
# Required: under 10 ms and under 8 MB resident.
. "$(dirname "$0")/common.sh"

program=$(release/make --program)
frame() {
  "$program" frame - --ensemble E1C5 --count 0 <examples/one_programme.rec
}
micros=$(best 100 frame)
/usr/bin/time -f '%M' "$program" frame - --ensemble E1C5 --count 0 \
  <examples/one_programme.rec 2>"$work/resident" >/dev/null
resident=$(tail -n 1 "$work/resident")
echo "frame: $(thousandths "$micros") ms at the best of 100 runs, $resident KB resident"
if [ "$micros" -ge 10000 ] || [ "$resident" -ge 8192 ]; then
  echo "frame: over 10 ms or 8 MB"
  exit 1
fi
