#!/usr/bin/env bash
# The instructions of commands, counted by valgrind's callgrind: the same each time, on any machine. Skipped without valgrind.
exec "$(dirname "$0")/instruction_counts.py" "$@"
