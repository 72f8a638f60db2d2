#!/usr/bin/env bash
# `dabplan listen` on a stream that another multiplexer wrote: real_fic.fib of the given folder, by
# ODR-DabMux 5.1. It must print exactly the content of real_fic.listen.
set -euo pipefail
cd "$(dirname "$0")/.."
samples=${1:-bench/samples}
if [ ! -r "$samples/real_fic.fib" ]; then
  echo "real stream: no $samples/real_fic.fib; hand in the folder of the samples"
  exit 2
fi
./dabplan listen "$samples/real_fic.fib" | diff "$samples/real_fic.listen" -
echo "real stream: $(($(stat -c %s "$samples/real_fic.fib") / 32)) FIBs listed as wanted"
