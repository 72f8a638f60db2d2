#!/usr/bin/env bash
# Runs every benchmark of this folder, one after another, and prints the measurement of each and whether it met its
# yardstick. Nothing else should run at the same time. Crates that ./dabplan or 'rt lib' proved are not proved again.
set -uo pipefail
cd "$(dirname "${BASH_SOURCE[0]}")"
passed=0 failed=0
for script in *.sh; do
  case $script in all.sh | common.sh | modules.sh) continue ;; esac
  echo "== $script"
  if "./$script"; then passed=$((passed + 1)); else failed=$((failed + 1)) && echo "$script: missed"; fi
done
echo "$passed passed, $failed failed"
[ "$failed" -eq 0 ]
