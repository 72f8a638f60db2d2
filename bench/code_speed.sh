#!/usr/bin/env bash
# Reading and writing the largest code file, of 4,096 instructions, 1,024 labels and 256 configurations whose
# tables are full, against md5sum on as many bytes times 20, in the same run: the best of 20 runs each.
# Required: `decode` and `encode` each take no longer than md5sum.
. "$(dirname "$0")/common.sh"

awk 'BEGIN {
  printf "44414250" "01" "E1C5" "04" "18" "14" "0100" "0400" "1000"
  for (place = 0; place < 256; place++) {
    printf "404040"
    for (sub_channel = 0; sub_channel < 64; sub_channel++)
      printf "%02X%04X00040008", sub_channel, 4 * sub_channel
    for (service = 0; service < 64; service++) {
      printf "00%04X0C", 256 * service + place
      for (component = 0; component < 12; component++) printf "003F%02X", component
    }
    for (packet = 0; packet < 64; packet++) printf "%04X003C05%04X", packet, packet + 1
  }
  for (pc = 0; pc < 1024; pc++) printf "%04X%04X%04X010001FFFFFF01", 4 * pc, pc % 256, (pc + 1) % 256
  for (line = 0; line < 4096; line++) printf "%04X1601E1C2%04X030FFF", line, line
}' | xxd -r -p >"$work/file"
for ((copy = 0; copy < 20; copy++)); do cat "$work/file"; done >"$work/copies"

run_program code_bench "$work/file" mux_eep mux_types mux_config fib_codec plan_code >"$work/times" <<'PROGRAM'
//! Times `decode` and `encode` on the code file on standard input.
#![tactic(auto)]

use plan_code::{decode, encode};
use std::io::{self, Read};
use std::time::Instant;

const RUNS: u32 = 20;

fn main(rt: HostRuntime) -> io::Result<()> {
    let mut bytes = Vec::new(rt.alloc());
    rt.reader().read_to_end(&mut bytes)?;
    let mut reading = u128::MAX;
    let mut writing = u128::MAX;
    let mut same = 0u32;
    for _ in 0..RUNS {
        let start = Instant::now(&rt)?;
        let decoded = decode(rt.alloc(), &bytes);
        let took = start.elapsed(&rt)?.as_micros();
        if took < reading {
            reading = took;
        }
        let Ok(code) = decoded else {
            continue;
        };
        let start = Instant::now(&rt)?;
        let encoded = encode(rt.alloc(), &code)?;
        let took = start.elapsed(&rt)?.as_micros();
        if took < writing {
            writing = took;
        }
        if encoded == bytes {
            same = same.wrapping_add(1);
        }
    }
    println!(rt; "{reading} {writing} {same}")?;
    Ok(())
}
PROGRAM
read -r decode encode same <"$work/times"
if [ "$same" -ne 20 ]; then
  echo "code: what is written is not what was read"
  exit 1
fi
md5=$(best 20 md5sum "$work/copies")
echo "code: $(stat -c %s "$work/file") bytes; decode $decode us, encode $encode us, md5sum on 20 times as many bytes $md5 us"
if [ "$decode" -gt "$md5" ] || [ "$encode" -gt "$md5" ]; then
  echo "code: longer than md5sum"
  exit 1
fi
