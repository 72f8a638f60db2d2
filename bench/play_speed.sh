#!/usr/bin/env bash
# Plays 1,000,000 frames of the example code, whose contact changes every 150 frames, and 1,000,000 of codes over
# configurations of 64 sub-channels, 64 services and 64 packet components that swap every 300 frames, each in the modes I
# and III, over `Tables`, into a sink that keeps nothing; and in the same run a loop that copies the bytes of the same number
# of frames and computes the CRC of each of their FIBs: the best of 7 runs each, in nanoseconds per frame.
# Required: the example at most 1.5 times as long as that loop, and services of one component at most 2.5 times. With 5
# components per service, whose pages are near the maximum of a plan, it only prints the time.
. "$(dirname "$0")/common.sh"

# code NAME HEADER: a code file in hexadecimal digits from this header on, preceded by its length
code() {
  local digits
  digits=$2$(cat)
  printf '%08X%s' $((${#digits} / 2)) "$digits" | xxd -r -p >"$work/$1"
}

example() {
  xxd -p examples/contact_lowers_a_rate.code | tr -d '\n' | cut -c 11-
}

# large COMPONENTS: sub-channel 63 is moved back and forth, with a swap 248 frames after each commit and the next commit 52
# frames after the swap
large() {
  awk -v components="$1" 'BEGIN {
    printf "E1C5" "3C" "F8" "14" "0001" "0001" "0009" "404040"
    for (sub_channel = 0; sub_channel < 64; sub_channel++) printf "%02X%04X00040008", sub_channel, 4 * sub_channel
    for (service = 0; service < 64; service++) {
      printf "00%04X%02X", 256 * service, components
      for (component = 0; component < components; component++) printf "003F%02X", (service + component) % 64
    }
    for (packet = 0; packet < 64; packet++) printf "%04X003C05%04X", packet, packet + 1
    printf "00000000000000000000000003"
    printf "0001" "123F00FD" "0002" "0400F8" "0003" "06" "0004" "010034"
    printf "0005" "123F00FC" "0006" "0400F8" "0007" "06" "0008" "010034" "0009" "210000"
  }'
}

example | code example_i 4441425001
example | code example_iii 444142500203
large 1 | code large_i 4441425001
large 1 | code large_iii 444142500203
large 5 | code larger_i 4441425001
large 5 | code larger_iii 444142500203
cat "$work"/{example,large,larger}_{i,iii} >"$work/codes"

run_program play_bench "$work/codes" mux_eep mux_types mux_config mux_tables fib_codec fib_reader fib_carousel plan_code \
  plan_verifier plan_runs plan_player >"$work/times" <<'PROGRAM'
//! Times `play` on the code files on standard input, each preceded by its length.
#![tactic(auto)]

ghost use Rattle.std.specs.Prelude.{◌≡◌, ◌+◌, ◌≤◌, None, false};

use fib_codec::crc16;
use mux_tables::Tables;
use plan_code::{ContactId, Contacts, decode};
use plan_player::{Event, Player, Sink, Start, play};
use plan_verifier::{Verified, verify};
use std::alloc::{AllocError, Global};
use std::io::{self, Read};
use std::time::Instant;

const FRAMES: u32 = 1_000_000;
const RUNS: u32 = 7;
const ROW: usize = 4096 + 128;

/// Keeps nothing of what it takes. A byte of each frame is summed, so that no frame is optimised away.
#[derive(Drop)]
struct Nothing {
    frames: u32,
    sum: u32,
}

impl Sink for Nothing {
    ghost taken = { λ s. None };

    ghost has_failed = { λ s. false };

    fn put(&mut self, bytes: &[u8]) -> Option<usize> {
        let byte = bytes.get((self.frames % 96) as usize).copied();
        self.sum = self.sum.wrapping_add(u32::from(byte.unwrap_or(0)));
        self.frames = self.frames.wrapping_add(1);
        Some(bytes.len())
    }

    fn failed(&self) -> bool {
        false
    }
}

fn empty_sink() -> Nothing {
    Nothing { frames: 0, sum: 0 }
}

/// Fills a row with bytes of a linear congruential generator.
fn fill(row: &mut [u8; ROW]) {
    let mut state = 1u32;
    for byte in row {
        state = state.wrapping_mul(1_664_525).wrapping_add(1_013_904_223);
        *byte = (state >> 24) as u8;
    }
}

/// Thirty bytes of the row and their CRC.
fn fib(row: &[u8; ROW], at: usize) -> [u8; 32]
    requires { at + 30 ≤ 4224 }
{
    let mut fib = [0u8; 32];
    fib[..30].copy_from_slice(&row[at..at + 30]);
    fib[30..].copy_from_slice(&crc16(&row[at..at + 30]).to_be_bytes());
    fib
}

/// The bytes of a frame of three FIBs.
fn three(row: &[u8; ROW], at: usize) -> [u8; 96]
    requires { at + 94 ≤ 4224 }
{
    let mut frame = [0u8; 96];
    let (first, more) = frame.split_at_mut(32);
    let (second, third) = more.split_at_mut(32);
    first.copy_from_slice(&fib(row, at));
    second.copy_from_slice(&fib(row, at + 32));
    third.copy_from_slice(&fib(row, at + 64));
    frame
}

/// The bytes of a frame of four FIBs.
fn four(row: &[u8; ROW], at: usize) -> [u8; 128]
    requires { at + 126 ≤ 4224 }
{
    let mut frame = [0u8; 128];
    let (front, back) = frame.split_at_mut(64);
    let (first, second) = front.split_at_mut(32);
    let (third, fourth) = back.split_at_mut(32);
    first.copy_from_slice(&fib(row, at));
    second.copy_from_slice(&fib(row, at + 32));
    third.copy_from_slice(&fib(row, at + 64));
    fourth.copy_from_slice(&fib(row, at + 96));
    frame
}

fn copy_three(row: &[u8; ROW], sink: &mut Nothing) {
    for turn in 0..FRAMES {
        let _taken = sink.put(&three(row, (turn % 4096) as usize));
    }
}

fn copy_four(row: &[u8; ROW], sink: &mut Nothing) {
    for turn in 0..FRAMES {
        let _taken = sink.put(&four(row, (turn % 4096) as usize));
    }
}

/// All frames, with contact 3 closed before the first, opened before the 151st, and so on.
fn events(alloc: Global) -> Result<Vec<Event>, AllocError> {
    let mut events = Vec::new(alloc);
    for number in 0..FRAMES {
        if number % 150 == 0 {
            if let Some(contact) = ContactId::new(3) {
                events.push(Event::Contact(contact, number % 300 == 0))?;
            }
        }
        events.push(Event::Frame)?;
    }
    Ok(events)
}

fn player(code: &Verified) -> Option<Player<'_, Tables>> {
    let start = Start {
        eid: 0xE1C5,
        count: 0,
        day: 0,
        contacts: Contacts(0),
    };
    Player::new(code, start).ok()
}

/// The number of swaps in the first 3,000 frames.
fn swaps(code: &Verified) -> u32 {
    let Some(mut player) = player(code) else {
        return 0;
    };
    let mut swaps = 0u32;
    for number in 0..3000u32 {
        if number % 150 == 0 {
            if let Some(contact) = ContactId::new(3) {
                player.contact(contact, number % 300 == 0);
            }
        }
        if player.remaining() == Some(0) {
            swaps = swaps.wrapping_add(1);
        }
        let _frame = player.frame();
    }
    swaps
}

fn least(one: u128, other: u128) -> u128 {
    if one < other { one } else { other }
}

fn time_copies(rt: &HostRuntime, row: &[u8; ROW], four: bool) -> io::Result<u128> {
    let mut took = u128::MAX;
    let mut sink = empty_sink();
    for _ in 0..RUNS {
        let start = Instant::now(rt)?;
        if four {
            copy_four(row, &mut sink);
        } else {
            copy_three(row, &mut sink);
        }
        took = least(took, start.elapsed(rt)?.as_micros());
    }
    println!(rt; "# sum {}", sink.sum)?;
    Ok(took)
}

fn time_play(rt: &HostRuntime, code: &Verified, events: &[Event]) -> io::Result<u128> {
    let mut took = u128::MAX;
    let mut sink = empty_sink();
    for _ in 0..RUNS {
        let Some(mut player) = player(code) else {
            continue;
        };
        let start = Instant::now(rt)?;
        let played = play(&mut player, events, &mut sink).unwrap_or(0);
        took = least(took, start.elapsed(rt)?.as_micros());
        println!(rt; "# {played} frames")?;
    }
    println!(rt; "# sum {}", sink.sum)?;
    Ok(took)
}

/// The first code file, without the length before it, and what comes after it.
fn split(bytes: &[u8]) -> Option<(&[u8], &[u8])> {
    let (length, rest) = bytes.split_first_chunk::<4>()?;
    rest.split_at_checked(u32::from_be_bytes(*length) as usize)
}

fn main(rt: HostRuntime) -> io::Result<()> {
    let alloc = rt.alloc();
    let mut bytes = Vec::new(alloc);
    rt.reader().read_to_end(&mut bytes)?;
    let mut row = [0u8; ROW];
    fill(&mut row);
    let events = events(alloc)?;
    let mut rest = bytes.as_slice();
    for turn in 0..6u8 {
        let Some((file, more)) = split(rest) else {
            break;
        };
        rest = more;
        let Ok(code) = decode(alloc, file) else {
            println!(rt; "# no code")?;
            continue;
        };
        match verify::<Tables>(code) {
            Err(refused) => println!(rt; "# refused at {}: {}", refused.pc, refused.cause)?,
            Ok(code) => {
                let copies = time_copies(&rt, &row, turn % 2 == 1)?;
                let play = time_play(&rt, &code, &events)?;
                println!(rt; "{play} {copies} {}", swaps(&code))?;
            }
        }
    }
    Ok(())
}
PROGRAM
grep -v '^#' "$work/times" >"$work/figures" || true
if [ "$(wc -l <"$work/figures")" -ne 6 ]; then
  cat "$work/times"
  echo "play: a code is not accepted"
  exit 1
fi
slow=0
# report NAME TENTHS PLAY COPIES SWAPS: prints the nanoseconds per frame, and fails if they are more than this many
# tenths of those of the copies
report() {
  echo "play: $1 $(thousandths "$3") ns a frame, copies and CRCs $(thousandths "$4") ns: $(thousandths $((1000 * $3 / $4))) times; $5 swaps in 3000 frames"
  if [ $((10 * $3)) -gt $(($2 * $4)) ]; then
    echo "play: $1 more than $(thousandths $((100 * $2))) times"
    slow=1
  fi
}
{
  read -r play copies swaps && report "the example in mode I" 15 "$play" "$copies" "$swaps"
  read -r play copies swaps && report "the example in mode III" 15 "$play" "$copies" "$swaps"
  read -r play copies swaps && report "64 of each in mode I" 25 "$play" "$copies" "$swaps"
  read -r play copies swaps && report "64 of each in mode III" 25 "$play" "$copies" "$swaps"
  read -r play copies swaps && report "64 of each with 5 components in mode I" 1000 "$play" "$copies" "$swaps"
  read -r play copies swaps && report "64 of each with 5 components in mode III" 1000 "$play" "$copies" "$swaps"
} <"$work/figures"
exit "$slow"
