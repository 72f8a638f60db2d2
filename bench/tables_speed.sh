#!/usr/bin/env bash
# Whether two of 64 sub-channels share a capacity unit, and whether a configuration of 64 sub-channels is sound:
# over configurations in tables, which compare pairs, and over counted ones, in one run. 16 configurations are
# used in turn; in four of them the two highest sub-channels share a unit, which the pairs find last, and in the others
# none do. Required: counted configurations answer `crowded` at least 20 times as fast.
. "$(dirname "$0")/common.sh"

run_program tables_bench /dev/null mux_eep mux_types mux_config mux_tables >"$work/times" <<'PROGRAM'
//! Times `crowded` and `soundness` over both stores.
#![tactic(auto)]

ghost use Rattle.std.specs.Prelude.{◌<◌};

use mux_config::{Config, Store, Sub, SubId, soundness};
use mux_eep::{EepSet, Protection};
use mux_tables::Tables;
use std::io;
use std::time::Instant;

const ROUNDS: u32 = 400_000;

/// Sub-channels of 12 CU, 13 CU from one to the next; the last one starts at `last`.
fn spaced<S: Store>(last: u16) -> Option<S> {
    let mut store = S::empty();
    let protection = Protection::new(EepSet::A, 4)?;
    for k in 0u8..64 {
        let id = SubId::new(k)?;
        let start = if k < 63 { 13 * u16::from(k) } else { last };
        store.add_sub(Sub { id, start, protection, kbits: 24 }).ok()?;
    }
    Some(store)
}

fn crowded<S: Store>(stores: &[S]) -> u32 {
    let mut found = 0u32;
    for round in 0..ROUNDS {
        let k = (round % 16) as usize;
        if k < stores.len() && stores[k].crowded() {
            found = found.wrapping_add(1);
        }
    }
    found
}

fn unsound<S: Store>(stores: &[S]) -> u32 {
    let mut found = 0u32;
    for round in 0..ROUNDS {
        let k = (round % 16) as usize;
        if k < stores.len() && soundness(&stores[k]).is_err() {
            found = found.wrapping_add(1);
        }
    }
    found
}

fn main(rt: HostRuntime) -> io::Result<()> {
    let mut configs: Vec<Config> = Vec::new(rt.alloc());
    let mut tables: Vec<Tables> = Vec::new(rt.alloc());
    for k in 0u16..16 {
        let last = if k % 4 == 3 { 817 } else { 819 };
        if let (Some(config), Some(counted)) = (spaced::<Config>(last), spaced::<Tables>(last)) {
            configs.push(config)?;
            tables.push(counted)?;
        }
    }
    let start = Instant::now(&rt)?;
    let by_pairs = crowded(configs.as_slice());
    let pairs = start.elapsed(&rt)?.as_nanos();
    let start = Instant::now(&rt)?;
    let by_lanes = crowded(tables.as_slice());
    let lanes = start.elapsed(&rt)?.as_nanos();
    let start = Instant::now(&rt)?;
    let first = unsound(configs.as_slice());
    let config_soundness = start.elapsed(&rt)?.as_nanos();
    let start = Instant::now(&rt)?;
    let second = unsound(tables.as_slice());
    let tables_soundness = start.elapsed(&rt)?.as_nanos();
    println!(rt; "{} {} {} {} {by_pairs} {by_lanes} {first} {second}", pairs / 400_000, lanes / 400_000, config_soundness / 400_000, tables_soundness / 400_000)?;
    Ok(())
}
PROGRAM
read -r pairs lanes config_soundness tables_soundness counts <"$work/times"
if [ "$counts" != "100000 100000 100000 100000" ]; then
  echo "tables: the answers differ: $counts"
  exit 1
fi
echo "tables: crowded $pairs ns by pairs, $lanes ns by lanes; soundness $config_soundness ns and $tables_soundness ns"
if [ $((20 * lanes)) -gt "$pairs" ]; then
  echo "tables: less than 20 times as fast as the pairs"
  exit 1
fi
