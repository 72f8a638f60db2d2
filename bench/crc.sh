#!/usr/bin/env bash
# The two CRC functions on ten million blocks of 30 bytes, in one run: bit by bit, and by tables, with twenty repetitions,
# of which the shortest of each counts. The blocks are 250 different random ones, repeated, each time with
# another first byte. Required: the tables at least twenty times as fast.
. "$(dirname "$0")/common.sh"

run_program crc_bench /dev/null mux_eep mux_types fib_codec >"$work/times" <<'PROGRAM'
//! Times both bodies of the CRC.
#![tactic(auto)]

use fib_codec::{crc16, crc16_by_bits};
use std::io;
use std::time::Instant;

const BLOCKS: usize = 250;
const ROUNDS: u32 = 2000;
const TURNS: u32 = 20;

/// Fills the blocks with bytes of a linear congruential generator.
fn fill(blocks: &mut [[u8; 30]; BLOCKS]) {
    let mut state = 1u32;
    for block in blocks {
        for byte in block {
            state = state.wrapping_mul(1_664_525).wrapping_add(1_013_904_223);
            *byte = (state >> 24) as u8;
        }
    }
}

// the CRCs are summed, so that none is optimised away
fn sum_by_bits(blocks: &mut [[u8; 30]; BLOCKS]) -> u32 {
    let mut sum = 0u32;
    for round in 0..ROUNDS {
        for block in &mut *blocks {
            block[0] = (round % 256) as u8;
            sum = sum.wrapping_add(u32::from(crc16_by_bits(block)));
        }
    }
    sum
}

fn sum_by_tables(blocks: &mut [[u8; 30]; BLOCKS]) -> u32 {
    let mut sum = 0u32;
    for round in 0..ROUNDS {
        for block in &mut *blocks {
            block[0] = (round % 256) as u8;
            sum = sum.wrapping_add(u32::from(crc16(block)));
        }
    }
    sum
}

fn main(rt: HostRuntime) -> io::Result<()> {
    let mut blocks = [[0u8; 30]; BLOCKS];
    fill(&mut blocks);
    for _ in 0..TURNS {
        let start = Instant::now(&rt)?;
        let by_bits = sum_by_bits(&mut blocks);
        let slow = start.elapsed(&rt)?.as_micros();
        let start = Instant::now(&rt)?;
        let by_tables = sum_by_tables(&mut blocks);
        let fast = start.elapsed(&rt)?.as_micros();
        println!(rt; "{slow} {fast} {by_bits} {by_tables}")?;
    }
    Ok(())
}
PROGRAM
if ! awk '$3 != $4 { exit 1 }' "$work/times"; then
  echo "CRC: the two bodies differ"
  exit 1
fi
slow=$(sort -n -k 1,1 "$work/times" | head -n 1 | cut -d ' ' -f 1)
fast=$(sort -n -k 2,2 "$work/times" | head -n 1 | cut -d ' ' -f 2)
echo "CRC: 500,000 blocks bit by bit $slow us, by tables $fast us: $((slow / fast)) times as fast"
if [ "$slow" -lt $((20 * fast)) ]; then
  echo "CRC: under twenty times as fast"
  exit 1
fi
