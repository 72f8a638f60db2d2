#!/usr/bin/env bash
# dabplan-bridge run --compose over two inputs of 18 sub-channels and 864 units: the processor time of a frame. Required: below 2 ms.
exec python3 "$(dirname "${BASH_SOURCE[0]}")/compose_speed.py" "$@"
