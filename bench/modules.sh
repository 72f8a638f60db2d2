# Rattle modules that the programs of several benchmarks share. run_program of common.sh writes those that a program
# names next to it.

# module_largest: the largest configuration
module_largest() {
  cat <<'MODULE'
//! The largest configuration: 64 sub-channels, 64 services of 12 components and 64 packet components.
ghost use Rattle.std.specs.Prelude.{◌<◌};

use mux_config::{Component, Config, Packet, ScId, ScTy, Sid, Store, Sub, SubId};
use mux_eep::{EepSet, Protection};

/// Adds a sub-channel, a service of 12 components and a packet component.
fn add_each(config: &mut Config, k: u8) -> Option<()>
    requires { k < 64 }
{
    let id = SubId::new(k)?;
    let ty = ScTy::new(63)?;
    let protection = Protection::new(EepSet::A, 4)?;
    let start = 4 * u16::from(k);
    let kbits = 8;
    config
        .add_sub(Sub {
            id,
            start,
            protection,
            kbits,
        })
        .ok()?;
    let sid = Sid::Short(0x1000 + u16::from(k));
    config.add_service(sid).ok()?;
    for component in 0..12 {
        let sub = SubId::new((k + component) % 64)?;
        config
            .add_component(sid, Component::Sound { ty, sub })
            .ok()?;
    }
    let scid = ScId::new(u16::from(k))?;
    let address = u16::from(k) + 1;
    config
        .add_packet(Packet {
            scid,
            dg: false,
            ty,
            sub: id,
            address,
        })
        .ok()
}

/// The configuration, or `None` if an edit is refused.
pub fn largest_config() -> Option<Config> {
    let mut config = Config::new();
    for k in 0..64 {
        add_each(&mut config, k)?;
    }
    Some(config)
}
MODULE
}

# module_row: random bytes, and their CRCs
module_row() {
  cat <<'MODULE'
//! Random bytes, and the CRCs of the blocks of 30 bytes among them.
use fib_codec::crc16;

/// The number of bytes in a row: a block of 30 begins at each of the first 4,096.
pub const ROW: usize = 4096 + 30;

/// A row of bytes of a linear congruential generator.
pub fn row_of_bytes() -> [u8; ROW] {
    let mut row = [0u8; ROW];
    let mut state = 1u32;
    for byte in &mut row {
        state = state.wrapping_mul(1_664_525).wrapping_add(1_013_904_223);
        *byte = (state >> 24) as u8;
    }
    row
}

/// The sum of the CRCs of this many blocks. Each block is the one before moved on by a byte of the row, so that it
/// differs completely, and the CRCs are summed, so that none is optimised away.
pub fn crcs(row: &[u8; ROW], blocks: u32) -> u32 {
    let mut sum = 0u32;
    for turn in 0..blocks {
        let at = (turn % 4096) as usize;
        sum = sum.wrapping_add(u32::from(crc16(&row[at..at + 30])));
    }
    sum
}
MODULE
}
