#!/usr/bin/env bash
# Sends 10,000 pages of the largest pair of configurations, each of 64 sub-channels, 64 services of 12 components and
# 64 packet components, by the plain `page` and by a cursor, and 1,000,000 pages of the example configuration by a
# cursor, in one run; and computes one CRC of 30 bytes for each FIB of those pages of the example. It prints the time of
# each. Required: the cursor at least 8 times as fast, and a page of the example in under 0.6 microseconds.
. "$(dirname "$0")/common.sh"

# invariant FUNCTION CONFIGURATIONS: the loop of this function keeps its cursor at a page of these configurations
invariant() {
  local folder=$work/top/crates/cursor_bench/proofs/$1
  mkdir -p "$folder"
  cat >"$folder/Invariants.antt" <<ANTT
use Rattle.std.proofs.Common.{Some, None}
use Rattle.fib_codec.specs.declared.modes.Mode.TheVariants.{I}
use Rattle.fib_carousel.specs.Pages.{page_set}
use Rattle.fib_carousel.specs.Walk.{Stands}
use Rattle.cursor_bench.proofs.$1.Given as goal

abbrev pub invariant-loop-turn : goal.invariant-loop-turn
invariant-loop-turn l = Stands I (page_set $2) l.cursor
ANTT
  cat >"$folder/Answers.antt" <<ANTT
use Rattle.cursor_bench.proofs.$1.Goals as goal

pub loop-turn-init : goal.loop-turn-init
loop-turn-init c = c.new-cursor.ensures.stands _ _
ANTT
}
invariant by_cursor 'l.fn.current (Some l.fn.next)'
invariant small_by_cursor 'l.fn.config None'

run_program cursor_bench /dev/null mux_eep mux_types mux_config fib_codec fib_carousel <<'PROGRAM' | tee "$work/figures"
//! Times pages by a cursor beside the plain ones.
#![tactic(auto)]

mod largest;
mod row;

use fib_carousel::{Cursor, page, pages};
use fib_codec::Mode;
use largest::largest_config;
use mux_config::{Component, Config, Ensemble, ScTy, Sid, Store, Sub, SubId};
use mux_eep::{EepSet, Protection};
use row::{crcs, row_of_bytes};
use std::io;
use std::time::Instant;

const PAGES: u32 = 10_000;
const SMALL: u32 = 1_000_000;

/// Sub-channel 1 at 3-A 128 kbit/s, and the service C221 with sound of type 63 on it.
fn example() -> Option<Config> {
    let mut config = Config::new();
    let id = SubId::new(1)?;
    let protection = Protection::new(EepSet::A, 3)?;
    config.add_sub(Sub { id, start: 0, protection, kbits: 128 }).ok()?;
    let sid = Sid::Short(0xC221);
    config.add_service(sid).ok()?;
    config.add_component(sid, Component::Sound { ty: ScTy::new(63)?, sub: id }).ok()?;
    Some(config)
}

// a byte of each page is summed, so that no page is optimised away
fn byte_of(bytes: &[u8], turn: u32) -> u32 {
    u32::from(bytes.get((turn % 96) as usize).copied().unwrap_or(0))
}

fn plain(current: &Config, next: &Config) -> u32 {
    let count = pages(Mode::I, current, Some(next));
    let mut sum = 0u32;
    let mut k = 0;
    for turn in 0..PAGES {
        if k >= count {
            k = 0;
        }
        sum = sum.wrapping_add(byte_of(page(Mode::I, current, Some(next), k, None).bytes(), turn));
        k += 1;
    }
    sum
}

fn by_cursor(current: &Config, next: &Config) -> u32 {
    let mut sum = 0u32;
    let mut cursor = Cursor::new();
    for turn in 0..PAGES {
        sum = sum.wrapping_add(byte_of(cursor.page(Mode::I, current, Some(next), None).bytes(), turn));
    }
    sum
}

fn small_by_cursor(config: &Config) -> u32 {
    let alone: Option<&Config> = None;
    let mut sum = 0u32;
    let mut cursor = Cursor::new();
    for turn in 0..SMALL {
        let ensemble = if turn % 4 == 0 {
            Ensemble::new(0xE1C5, 0, false, (turn % 5000) as u16, None)
        } else {
            None
        };
        sum = sum.wrapping_add(byte_of(cursor.page(Mode::I, config, alone, ensemble).bytes(), turn));
    }
    sum
}

fn main(rt: HostRuntime) -> io::Result<()> {
    let (Some(current), Some(next), Some(config)) = (largest_config(), largest_config(), example()) else {
        println!(rt; "no such configurations")?;
        return Ok(());
    };
    let start = Instant::now(&rt)?;
    let one = plain(&current, &next);
    let plain = start.elapsed(&rt)?.as_micros();
    let start = Instant::now(&rt)?;
    let other = by_cursor(&current, &next);
    let cursor = start.elapsed(&rt)?.as_micros();
    let start = Instant::now(&rt)?;
    let small_sum = small_by_cursor(&config);
    let small = start.elapsed(&rt)?.as_micros();
    let row = row_of_bytes();
    let start = Instant::now(&rt)?;
    let crc_sum = crcs(&row, 3 * SMALL);
    let checking = start.elapsed(&rt)?.as_micros();
    println!(rt; "cursor: {PAGES} pages of the largest pair {cursor} us, plain {plain} us (sums {one} {other})")?;
    println!(rt; "cursor: {SMALL} pages of the example {small} us, CRCs of as many FIBs {checking} us (sums {small_sum} {crc_sum})")?;
    Ok(())
}
PROGRAM
read -r cursor plain < <(sed -n 's/.*largest pair \([0-9]*\) us, plain \([0-9]*\) us.*/\1 \2/p' "$work/figures")
read -r small crcs < <(sed -n 's/.*the example \([0-9]*\) us, CRCs of as many FIBs \([0-9]*\) us.*/\1 \2/p' "$work/figures")
echo "cursor: $(thousandths $((1000 * plain / cursor))) times as fast; a page of the example $(thousandths $((small / 1000))) us, its CRCs $(thousandths $((crcs / 1000))) us"
if [ $((8 * cursor)) -gt "$plain" ] || [ "$small" -ge 600000 ]; then
  echo "cursor: less than 8 times as fast, or 0.6 us a page or more"
  exit 1
fi
