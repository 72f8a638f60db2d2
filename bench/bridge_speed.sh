#!/usr/bin/env bash
# dabplan-bridge over 100,000 frames of ETI and of EDI: the time of a frame, and its memory. Required: at most 0.5 ms and 30 MB.
exec python3 "$(dirname "${BASH_SOURCE[0]}")/bridge_speed.py" "$@"
