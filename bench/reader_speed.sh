#!/usr/bin/env bash
# Checking and walking 1,000,000 FIBs held in memory against md5sum on the same 32 MB, in the same run: the best
# of twenty runs each. For each FIB the reader tests the CRC and the grammar, and then returns each FIG with
# its head and each entry with its bytes, whose lengths and first bytes are summed. Required: no more time than
# md5sum takes. Also, without a yardstick: the same walk with the value of each entry, the fields of
# which are summed; for the components of a service their number and the first one.
#   bench/reader_speed.sh [FOLDER of real_fic.fib]
. "$(dirname "$0")/common.sh"

stream "$work/stream" "$@"
run_program reader_bench "$work/stream" mux_eep mux_types mux_config fib_codec fib_reader >"$work/walks" <<'PROGRAM'
//! Times the reader on the FIBs of standard input.
#![tactic(auto)]

use fib_reader::check;
use mux_config::{ComponentEntry, Entry, Sid};
use std::io::{self, Read};
use std::time::Instant;

/// The sum of all fields of a component.
fn sum_of_component(component: &ComponentEntry) -> u32 {
    match component {
        ComponentEntry::Sound { ty, sub, primary, ca } => {
            u32::from(ty.get()).wrapping_add(u32::from(sub.get())).wrapping_add(u32::from(*primary)).wrapping_add(u32::from(*ca))
        }
        ComponentEntry::Stream { ty, sub, primary, ca } => {
            u32::from(ty.get()).wrapping_add(u32::from(sub.get())).wrapping_add(u32::from(*primary)).wrapping_add(u32::from(*ca))
        }
        ComponentEntry::Other { bits } => u32::from(bits.get()),
        ComponentEntry::Packet { scid, primary, ca } => {
            u32::from(scid.get()).wrapping_add(u32::from(*primary)).wrapping_add(u32::from(*ca))
        }
    }
}

/// The sum of the fields of an entry: of the components their number and the first one.
fn sum_of(entry: Entry) -> u32 {
    match entry {
        Entry::Ensemble(e) => {
            let occurrence = match e.occurrence() {
                Some(low) => u32::from(low),
                None => 256,
            };
            u32::from(e.eid()).wrapping_add(u32::from(e.change())).wrapping_add(u32::from(e.al())).wrapping_add(u32::from(e.count())).wrapping_add(occurrence)
        }
        Entry::Sub(s) => {
            u32::from(s.id.get()).wrapping_add(u32::from(s.start.get())).wrapping_add(u32::from(s.option.get())).wrapping_add(u32::from(s.level.get())).wrapping_add(u32::from(s.size.get()))
        }
        Entry::Short(s) => {
            u32::from(s.id.get()).wrapping_add(u32::from(s.start.get())).wrapping_add(u32::from(s.switch)).wrapping_add(u32::from(s.table.get()))
        }
        Entry::Service(s) => {
            let sid = match s.sid {
                Sid::Short(number) => u32::from(number),
                Sid::Long(number) => number,
            };
            let first = match s.components.as_slice().first() {
                Some(component) => sum_of_component(component),
                None => 65_536,
            };
            let sum = sid.wrapping_add(u32::from(s.rfa)).wrapping_add(u32::from(s.ca_id.get()));
            sum.wrapping_add(s.components.len() as u32).wrapping_add(first)
        }
        Entry::Packet(p) => {
            let ca_org = match p.ca_org {
                Some(number) => u32::from(number),
                None => 65_536,
            };
            let flags = u32::from(p.dg).wrapping_add(u32::from(p.rfu)).wrapping_add(u32::from(p.rfa.get()));
            u32::from(p.scid.get()).wrapping_add(flags).wrapping_add(u32::from(p.ty.get())).wrapping_add(u32::from(p.sub.get())).wrapping_add(u32::from(p.address.get())).wrapping_add(ca_org)
        }
    }
}

/// The result of a walk: the numbers of damaged FIBs, FIGs and entries, and the sum of the fields.
#[derive(Clone, Copy)]
struct Met {
    damaged: u32,
    figs: u32,
    entries: u32,
    sum: u32,
}

/// Checks all FIBs, and counts and sums their FIGs and entries by their bytes.
fn walk(fibs: &[[u8; 32]]) -> Met {
    let mut met = Met { damaged: 0, figs: 0, entries: 0, sum: 0 };
    for fib in fibs {
        let Ok(figs) = check(fib) else {
            met.damaged = met.damaged.wrapping_add(1);
            continue;
        };
        for fig in figs {
            met.figs = met.figs.wrapping_add(1);
            if let Some(head) = fig.head() {
                met.sum = met.sum.wrapping_add(u32::from(head.ext)).wrapping_add(u32::from(head.next)).wrapping_add(u32::from(head.long));
            }
            for entry in fig.entries() {
                met.entries = met.entries.wrapping_add(1);
                let first = u32::from(entry.bytes().first().copied().unwrap_or(0));
                met.sum = met.sum.wrapping_add(entry.bytes().len() as u32).wrapping_add(first);
            }
        }
    }
    met
}

/// Like the walk by bytes, and sums the fields of the entries' values.
fn read(fibs: &[[u8; 32]]) -> Met {
    let mut met = Met { damaged: 0, figs: 0, entries: 0, sum: 0 };
    for fib in fibs {
        let Ok(figs) = check(fib) else {
            met.damaged = met.damaged.wrapping_add(1);
            continue;
        };
        for fig in figs {
            met.figs = met.figs.wrapping_add(1);
            for entry in fig.entries() {
                met.entries = met.entries.wrapping_add(1);
                met.sum = met.sum.wrapping_add(sum_of(entry.value()));
            }
        }
    }
    met
}

fn main(rt: HostRuntime) -> io::Result<()> {
    let mut stream = Vec::new(rt.alloc());
    rt.reader().read_to_end(&mut stream)?;
    let (fibs, _) = stream.as_slice().as_chunks::<32>();
    let number = fibs.len();
    for _ in 0..20 {
        let start = Instant::now(&rt)?;
        let met = walk(fibs);
        let micros = start.elapsed(&rt)?.as_micros();
        let (damaged, figs, entries, sum) = (met.damaged, met.figs, met.entries, met.sum);
        println!(rt; "walk {micros} us: {number} FIBs, {damaged} damaged, {figs} FIGs, {entries} entries, sum {sum}")?;
    }
    for _ in 0..20 {
        let start = Instant::now(&rt)?;
        let met = read(fibs);
        let micros = start.elapsed(&rt)?.as_micros();
        let (damaged, figs, entries, sum) = (met.damaged, met.figs, met.entries, met.sum);
        println!(rt; "values {micros} us: {number} FIBs, {damaged} damaged, {figs} FIGs, {entries} entries, sum {sum}")?;
    }
    Ok(())
}
PROGRAM
sed 's/^\([a-z]*\) [0-9]* us: /\1: /' "$work/walks" | sort -u
least() {
  sed -n "s/^$1 \([0-9]*\) us: .*/\1/p" "$work/walks" | sort -n | head -n 1
}
walk=$(least walk)
values=$(least values)
md5=$(best 20 md5sum "$work/stream")
echo "reader: $((walk / 1000)) ms to check and walk 1,000,000 FIBs, md5sum $((md5 / 1000)) ms: $(thousandths $((walk * 1000 / md5))) times; with values $((values / 1000)) ms: $(thousandths $((values * 1000 / md5))) times"
if [ "$walk" -gt "$md5" ]; then
  echo "reader: slower than md5sum"
  exit 1
fi
