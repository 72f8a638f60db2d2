#!/usr/bin/env bash
# Packs all pages of the largest pair of configurations, each of 64 sub-channels, 64 services of 12 components and
# 64 packet components, a thousand times in mode I, and computes one CRC of 30 bytes for each FIB of those
# pages, in one run. It prints the time of each.
. "$(dirname "$0")/common.sh"

run_program pack_bench /dev/null mux_eep mux_types mux_config fib_codec fib_carousel <<'PROGRAM'
//! Times the packing of the largest pair of configurations.
#![tactic(auto)]

mod largest;
mod row;

use fib_carousel::{page, pages};
use fib_codec::Mode;
use largest::largest_config;
use mux_config::Config;
use row::{crcs, row_of_bytes};
use std::io;
use std::time::Instant;

const ROUNDS: u32 = 1000;
const FIBS: u32 = 3 * 81;

// a byte of each page is summed, so that no page is optimised away
fn pack(current: &Config, next: &Config, round: u32) -> u32 {
    let mut sum = 0u32;
    for k in 0..pages(Mode::I, current, Some(next)) {
        let page = page(Mode::I, current, Some(next), k, None);
        let byte = page.bytes().get((round % 96) as usize).copied().unwrap_or(0);
        sum = sum.wrapping_add(u32::from(byte));
    }
    sum
}

fn main(rt: HostRuntime) -> io::Result<()> {
    let (Some(current), Some(next)) = (largest_config(), largest_config()) else {
        println!(rt; "no such configurations")?;
        return Ok(());
    };
    let count = pages(Mode::I, &current, Some(&next));
    let row = row_of_bytes();
    let start = Instant::now(&rt)?;
    let mut packed = 0u32;
    for round in 0..ROUNDS {
        packed = packed.wrapping_add(pack(&current, &next, round));
    }
    let packing = start.elapsed(&rt)?.as_micros();
    let start = Instant::now(&rt)?;
    let sum = crcs(&row, FIBS * ROUNDS);
    let checking = start.elapsed(&rt)?.as_micros();
    println!(rt; "pack: {ROUNDS} times all {count} pages {packing} us, the CRCs of as many FIBs {checking} us (sums {packed} {sum})")?;
    Ok(())
}
PROGRAM
