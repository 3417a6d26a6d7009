//! The list of `unpack`: UnpackSigned at both widths.

use crate::rng::Rng;
use jxl_bitstream::{unpack_signed, unpack_signed_u64};
use std::fmt::Write;

/// Lines `32 HEX8 DEC`, then lines `64 HEX16 DEC`.
pub fn list() -> String {
    let mut rng = Rng::new(1);
    let mut out = String::new();
    for x in inputs(u32::MAX.into(), &mut rng) {
        writeln!(out, "32 {x:08x} {}", unpack_signed(x as u32)).unwrap();
    }
    for x in inputs(u64::MAX, &mut rng) {
        writeln!(out, "64 {x:016x} {}", unpack_signed_u64(x)).unwrap();
    }
    out
}

/// The inputs up to `max`: small ones, both ends, around each power of two, then 64 random ones.
fn inputs(max: u64, rng: &mut Rng) -> Vec<u64> {
    let mut all = vec![];
    for x in 0..=3 {
        add(&mut all, x);
    }
    for power in (0..64).map(|k| 1u64 << k).filter(|&x| x <= max) {
        for x in [power - 1, power, power + 1] {
            add(&mut all, x);
        }
    }
    add(&mut all, max);
    let end = all.len() + 64;
    while all.len() < end {
        add(&mut all, rng.next() & max);
    }
    all
}

/// Adds x unless it is there: no line stands twice.
fn add(all: &mut Vec<u64>, x: u64) {
    if !all.contains(&x) {
        all.push(x);
    }
}
