#!/usr/bin/env bash
# Verifying a code near the limits: 4,096 instructions, 1,024 labels, 256 configurations of 64 sub-channels, 64
# services of 5 components and 64 packet components, and 500 commits, each of another configuration; over
# `Tables`, against md5sum on 20 copies of the code file, in the same run: the best of 20 runs each. It then prints the
# smallest stack with which the program reads and verifies the code. Required: `verify` takes no longer than md5sum.
. "$(dirname "$0")/common.sh"

# Sub-channel 63 has another start in each configuration. An iteration moves it, commits, tests two contacts twice
# before and after the swap, and waits.
awk '
function instr(hexadecimal) { printf "%04X%s", ++line, hexadecimal }
function label(pc, cur, next_one, pending, cost) {
  printf "%04X%04X%04X%s00%02X", pc, cur, next_one, pending, cost
}
BEGIN {
  printf "44414250" "01" "E1C5" "3C" "F8" "14" "0100" "0400" "1000"
  for (place = 0; place < 256; place++) {
    printf "404040"
    for (sub_channel = 0; sub_channel < 64; sub_channel++)
      printf "%02X%04X00040008", sub_channel, 4 * sub_channel + (sub_channel == 63 ? place : 0)
    for (service = 0; service < 64; service++) {
      printf "00%04X05", 256 * service
      for (component = 0; component < 5; component++) printf "003F%02X", (service + component) % 64
    }
    for (packet = 0; packet < 64; packet++) printf "%04X003C05%04X", packet, packet + 1
  }
  label(0, 0, 0, "0000000000", 5)
  for (round = 0; round < 500; round++) {
    before = round % 256; after = (round + 1) % 256
    if (round > 0) label(8 * round, before, before, "0000000000", 5)
    label(8 * round + 4, before, after, "0100F800FB", 1)
  }
  label(4000, 500 % 256, 500 % 256, "0000000000", 4)
  for (place = 0; place < 23; place++) label(4003 + 4 * place, 500 % 256, 500 % 256, "0000000000", 1)
  for (round = 0; round < 500; round++) {
    instr(sprintf("123F%04X", 252 + (round + 1) % 256))
    instr("0400F8")
    instr(sprintf("2001%04X", 8 * round + 4))
    instr(sprintf("2002%04X", 8 * round + 4))
    instr("06")
    instr(sprintf("2001%04X", 8 * round + 8))
    instr(sprintf("2002%04X", 8 * round + 8))
    instr("010001")
  }
  for (place = 0; place < 24; place++) {
    instr("22000001")
    instr(place < 23 ? sprintf("2001%04X", 4003 + 4 * place) : "22000001")
    instr("08")
    instr(place < 23 ? "010001" : "07")
  }
}' | xxd -r -p >"$work/file"
for ((copy = 0; copy < 20; copy++)); do cat "$work/file"; done >"$work/copies"

run_program verify_bench "$work/file" mux_eep mux_types mux_config mux_tables fib_codec fib_carousel plan_code plan_verifier \
  >"$work/times" <<'PROGRAM'
//! Times `verify` on the code file on standard input.
#![tactic(auto)]

use mux_tables::Tables;
use plan_code::decode;
use plan_verifier::verify;
use std::io::{self, Read};
use std::time::Instant;

const RUNS: u32 = 20;

fn main(rt: HostRuntime) -> io::Result<()> {
    let mut bytes = Vec::new(rt.alloc());
    rt.reader().read_to_end(&mut bytes)?;
    let mut least = u128::MAX;
    let mut accepted = 0u32;
    for _ in 0..RUNS {
        let Ok(code) = decode(rt.alloc(), &bytes) else {
            continue;
        };
        let start = Instant::now(&rt)?;
        let verdict = verify::<Tables>(code);
        let took = start.elapsed(&rt)?.as_micros();
        if took < least {
            least = took;
        }
        match verdict {
            Ok(_verified) => accepted = accepted.wrapping_add(1),
            Err(refused) => println!(rt; "refused at {}: {}", refused.pc, refused.cause)?,
        }
    }
    println!(rt; "{least} {accepted}")?;
    Ok(())
}
PROGRAM
read -r verify accepted <"$work/times"
if [ "$accepted" -ne 20 ]; then
  echo "verify: the code is not accepted"
  exit 1
fi
md5=$(best 20 md5sum "$work/copies")
echo "verify: $(stat -c %s "$work/file") bytes; verify $verify us, md5sum on 20 times as many bytes $md5 us"
if [ "$verify" -gt "$md5" ]; then
  echo "verify: longer than md5sum"
  exit 1
fi
program=$work/top/crates/verify_bench/out/verify_bench
least=4096
for ((part = 2048; part >= 4; part /= 2)); do
  if { (ulimit -s $((least - part)) && exec "$program" <"$work/file" >/dev/null); } 2>/dev/null; then
    least=$((least - part))
  fi
done
echo "verify: the whole program runs on a stack of $least KB"
