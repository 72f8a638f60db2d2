#!/usr/bin/env bash
# Parsing a script near the limits, of 8,192 items and statements, 64 defined blocks and braces 16 deep, about 200 KB,
# against md5sum on 100 copies of it, in the same run: the best of 20 runs each.
# Required: `parse` takes no longer than md5sum.
. "$(dirname "$0")/common.sh"

awk 'BEGIN {
  print "ensemble E1C5 mode 2\nperiod 60 notice 248 budget 255"
  for (item = 0; item < 4096; item++) {
    kind = item % 6
    if (kind == 0) printf "sub %d at %d eep %d-A %d\n", item % 64, item % 1024, item % 4 + 1, 8 * (item % 64)
    else if (kind == 1) printf "service E1C2%04X\n", item
    else if (kind == 2) printf "audio 63 sub %d in E1C2%04X\n", item % 64, item
    else if (kind == 3) printf "data %d sub 5 in %04X\n", item % 64, item
    else if (kind == 4) printf "carry %d in E1C2%04X\n", item % 4096, item
    else printf "packet %d raw type 60 sub %d address %d\n", item % 4096, item % 64, item
  }
  for (block = 0; block < 64; block++) {
    printf "define block_%d {\n", block
    for (act = 0; act < 16; act++) printf "  drop component packet %d in C221\n", 16 * block + act
    print "}"
  }
  print "begin"
  for (nest = 0; nest < 32; nest++) {
    for (depth = 0; depth < 16; depth++) print (depth % 2 ? "if contact 15 {" : "repeat 65535 {")
    for (act = 0; act < 79; act++) print (act % 2 ? "until 22:00:00" : "wait contact 3 closed")
    printf "apply block_%d\n", nest
    for (depth = 0; depth < 16; depth++) printf "} "
    print ""
  }
}' >"$work/script"
for ((copy = 0; copy < 100; copy++)); do cat "$work/script"; done >"$work/copies"

run_program parse_bench "$work/script" mux_eep mux_types mux_config fib_codec plan_code script_tokens script_front >"$work/times" <<'PROGRAM'
//! Times `parse` on the script on standard input.
#![tactic(auto)]

use script_front::parse;
use std::io::{self, Read};
use std::time::Instant;

const RUNS: u32 = 20;

fn main(rt: HostRuntime) -> io::Result<()> {
    let mut text = String::new(rt.alloc());
    rt.reader().read_to_string(&mut text)?;
    let mut least = u128::MAX;
    let mut blocks = 0;
    let mut items = 0;
    for _ in 0..RUNS {
        let start = Instant::now(&rt)?;
        let parsed = parse(rt.alloc(), text.as_str());
        let took = start.elapsed(&rt)?.as_micros();
        if took < least {
            least = took;
        }
        if let Ok(script) = parsed {
            blocks = script.blocks().len();
            items = script.items().len();
        }
    }
    println!(rt; "{least} {items} {blocks}")?;
    Ok(())
}
PROGRAM
read -r parse items blocks <"$work/times"
if [ "$items" -ne 4096 ] || [ "$blocks" -ne 64 ]; then
  echo "script: it was not parsed"
  exit 1
fi
md5=$(best 20 md5sum "$work/copies")
echo "script: $(stat -c %s "$work/script") bytes; parse $parse us, md5sum on 100 copies $md5 us"
if [ "$parse" -gt "$md5" ]; then
  echo "script: longer than md5sum"
  exit 1
fi
