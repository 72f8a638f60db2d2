#!/usr/bin/env bash
# Compiling a script near the limits of codes: 4,096 instructions, 1,024 labels, 256 configurations of 64 sub-channels,
# 64 services of 5 components and 64 packet components, 500 commits, and a budget of 255, against md5sum on 200 copies
# of its text, in the same run: the best of 10 runs each. It then prints the smallest memory in which the program parses
# and compiles the script. Required: `compile` takes no longer than md5sum.
. "$(dirname "$0")/common.sh"

# Sub-channel 63 has another start in each configuration. An iteration moves it, commits, tests two contacts twice
# before and after the swap, and waits.
awk 'BEGIN {
  print "ensemble E1C5 period 60 notice 248 budget 255"
  for (sub_channel = 0; sub_channel < 64; sub_channel++)
    printf "sub %d at %d eep 4-A 8\n", sub_channel, 4 * sub_channel
  for (service = 0; service < 64; service++) {
    printf "service %04X\n", 256 * service
    for (component = 0; component < 5; component++)
      printf "audio 63 sub %d in %04X\n", (service + component) % 64, 256 * service
  }
  for (packet = 0; packet < 64; packet++) printf "packet %d raw type 60 sub 5 address %d\n", packet, packet + 1
  print "begin"
  tests = "if contact 1 { if contact 2 { } }"
  for (round = 0; round < 500; round++) {
    printf "move sub 63 at %d\ncommit in 248\n%s\njoin\n%s\nwait 1\n", 252 + (round + 1) % 256, tests, tests
  }
  for (test = 0; test < 23; test++) print "if contact 1 { }\nwait 1"
  for (wait = 0; wait < 49; wait++) print "wait 1"
}' >"$work/script"
for ((copy = 0; copy < 200; copy++)); do cat "$work/script"; done >"$work/copies"

run_program compile_bench "$work/script" mux_eep mux_types mux_config mux_tables fib_codec fib_reader fib_carousel plan_code \
  plan_verifier plan_runs script_tokens script_front script_compiler >"$work/times" <<'PROGRAM'
//! Times `compile` on the script on standard input.
#![tactic(auto)]

use script_compiler::compile;
use script_front::parse;
use std::io::{self, Read};
use std::time::Instant;

const RUNS: u32 = 10;

fn main(rt: HostRuntime) -> io::Result<()> {
    let mut text = String::new(rt.alloc());
    rt.reader().read_to_string(&mut text)?;
    let Ok(script) = parse(rt.alloc(), text.as_str()) else {
        println!(rt; "0 0 0 0")?;
        return Ok(());
    };
    let mut least = u128::MAX;
    let mut lines = 0;
    let mut labels = 0;
    let mut configs = 0;
    for _ in 0..RUNS {
        let start = Instant::now(&rt)?;
        let compiled = compile(rt.alloc(), &script);
        let took = start.elapsed(&rt)?.as_micros();
        if took < least {
            least = took;
        }
        match compiled {
            Ok(code) => {
                lines = code.lines().len();
                labels = code.labels().len();
                configs = code.configs().len();
            }
            Err(fault) => println!(rt; "{fault}")?,
        }
    }
    println!(rt; "{least} {lines} {labels} {configs}")?;
    Ok(())
}
PROGRAM
read -r compile lines labels configs <"$work/times"
if [ "$lines $labels $configs" != "4096 1024 256" ]; then
  echo "compile: not the code that is wanted: $(cat "$work/times")"
  exit 1
fi
md5=$(best 10 md5sum "$work/copies")
echo "compile: $(stat -c %s "$work/script") bytes; compile $compile us, md5sum on 200 copies $md5 us"
program=$work/top/crates/compile_bench/out/compile_bench
least=262144
for ((part = 131072; part >= 256; part /= 2)); do
  if { (ulimit -v $((least - part)) && exec "$program" <"$work/script" >"$work/again"); } 2>/dev/null &&
    [ "$(wc -l <"$work/again")" -eq 1 ] && grep -q ' 4096 1024 256$' "$work/again"; then
    least=$((least - part))
  fi
done
echo "compile: the whole program compiles it in $least KB"
if [ "$compile" -gt "$md5" ]; then
  echo "compile: longer than md5sum"
  exit 1
fi
