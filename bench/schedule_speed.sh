#!/usr/bin/env bash
# Compiling the largest and the unluckiest schedules within the limits of texts. Required: half a second of processor time,
# and 64 MB, for each.
exec "$(dirname "$0")/schedule_speed.py"
