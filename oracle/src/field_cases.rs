//! The list of `fields`: which buffers are read, and by which calls.

use crate::fields::{Choice, Script, float_sum};
use crate::rng::Rng;

/// The whole script, group by group.
pub fn list() -> String {
    let mut out = String::new();
    let rng = &mut Rng::new(2);
    worked_pieces(&mut out);
    (0..64).for_each(|top| float_sum(&mut out, top));
    single_floats(&mut out, rng);
    floats(&mut out, rng);
    widths_at_the_end(&mut out, rng);
    bools(&mut out, rng);
    pads(&mut out, rng);
    skips(&mut out, rng);
    u64s(&mut out, rng);
    u32s(&mut out, rng);
    enums(&mut out, rng);
    random_calls(&mut out, rng);
    out
}

/// The worked pieces of document 01.
fn worked_pieces(out: &mut String) {
    let choices = [
        Choice::Constant(1),
        Choice::Bits(0, 2),
        Choice::Bits(3, 4),
        Choice::Bits(19, 8),
    ];
    Script::new(out, &[0x32]).u32(choices);
    Script::new(out, &[0xff; 10]).u64();
    for code in [0x3c00u16, 0x7bff, 0x0001, 0x0400, 0x8000, 0x7c00] {
        Script::new(out, &code.to_le_bytes()).f16();
    }
}

/// What the bits of a value are.
#[derive(Clone, Copy)]
enum Fill {
    Zeros,
    Ones,
    Random,
}

const FILLS: [Fill; 3] = [Fill::Zeros, Fill::Ones, Fill::Random];

impl Fill {
    /// 64 bits of this fill.
    fn bits(self, rng: &mut Rng) -> u64 {
        match self {
            Fill::Zeros => 0,
            Fill::Ones => u64::MAX,
            Fill::Random => rng.next(),
        }
    }

    /// A buffer of this fill.
    fn bytes(self, n: usize, rng: &mut Rng) -> Vec<u8> {
        (0..n).map(|_| self.bits(rng) as u8).collect()
    }
}

/// Bits in reading order.
#[derive(Default)]
struct Bits(Vec<bool>);

impl Bits {
    /// Adds the n lowest bits of a value, lowest first.
    fn push(&mut self, value: u64, n: usize) {
        self.0.extend((0..n).map(|i| value >> i & 1 == 1));
    }

    /// The bytes; the number of bits is a multiple of 8.
    fn bytes(&self) -> Vec<u8> {
        let byte = |part: &[bool]| part.iter().rev().fold(0, |b, &bit| b * 2 + u8::from(bit));
        self.0.chunks(8).map(byte).collect()
    }

    /// A buffer that ends after the first `left` bits of these, and the place of the first of them.
    fn cut(&self, left: usize, rng: &mut Rng) -> (Vec<u8>, usize) {
        let bytes_before = rng.pick(&[0, 0, 0, 1, 2, 9]);
        let place = left.next_multiple_of(8) - left + 8 * bytes_before;
        let mut all = Bits::default();
        (0..place).for_each(|_| all.push(rng.next(), 1));
        all.0.extend(&self.0[..left]);
        (all.bytes(), place)
    }
}

/// Writes a cut buffer, goes to the place of the cut bits, makes the call, shows what is left.
fn cut_case(out: &mut String, rng: &mut Rng, bits: &Bits, left: usize, call: impl Fn(&mut Script)) {
    let (bytes, place) = bits.cut(left, rng);
    let mut script = Script::new(out, &bytes);
    go_to(&mut script, place, rng);
    call(&mut script);
    script.peek(32);
}

/// From position 0 to `place`, by a skip or by a read, which fill the Rust's private buffer differently.
fn go_to(script: &mut Script, place: usize, rng: &mut Rng) {
    if place == 0 {
        return;
    }
    if place <= 32 && rng.below(2) == 0 {
        script.read(place);
    } else {
        script.skip(place);
    }
}

/// Single codes under each six top bits: the checksums cannot see those bits (see README.md).
fn single_floats(out: &mut String, rng: &mut Rng) {
    for top in 0..64 {
        let mut mantissas = vec![0, 1, 2, 511, 512, 1023];
        mantissas.extend([0; 3].map(|_| rng.below(1024) as u16));
        if top % 32 == 0 {
            mantissas.extend((2..10).flat_map(|k| [(1 << k) - 1, 1 << k, (1 << k) + 1]));
        }
        for mantissa in mantissas {
            Script::new(out, &(top * 1024 + mantissa).to_le_bytes()).f16();
        }
    }
}

/// F16 codes of each kind at each bit offset, and with 0 to 17 bits left.
fn floats(out: &mut String, rng: &mut Rng) {
    let codes = [
        0x3c00, 0x7bff, 0x0001, 0x0400, 0x8000, 0x7c00, 0x0000, 0x03ff, 0x83ff, 0x8001, 0x8400,
        0xfbff, 0xfc00, 0x7c01, 0x7e00, 0xffff, 0xbc00, 0x0200, 0x3555, 0xc248,
    ];
    for code in codes {
        let mut bits = Bits::default();
        bits.push(code, 16);
        cut_case(out, rng, &bits, 16, |script| script.f16());
        bits.push(rng.next(), 1 + rng.below(20));
        cut_case(out, rng, &bits, bits.0.len(), |script| script.f16());
    }
    for fill in FILLS {
        for left in 0..=17 {
            let mut bits = Bits::default();
            bits.push(fill.bits(rng), left);
            cut_case(out, rng, &bits, left, |script| script.f16());
        }
    }
}

/// Every width with every number of bits left from 0 to 34, by peek, read and consume.
fn widths_at_the_end(out: &mut String, rng: &mut Rng) {
    for left in 0..=34 {
        for width in 0..=32 {
            let mut bits = Bits::default();
            let fill = rng.pick(&[Fill::Random, Fill::Random, Fill::Ones]);
            bits.push(fill.bits(rng), left);
            let peeked = width + rng.below(33 - width);
            cut_case(out, rng, &bits, left, |script| {
                if (left + width) % 2 == 0 {
                    script.read(width);
                } else {
                    script.peek(peeked);
                    script.consume(width);
                }
                script.peek(width);
            });
        }
    }
}

/// Bools over whole buffers, and one past the end.
fn bools(out: &mut String, rng: &mut Rng) {
    for fill in FILLS {
        for len in 0..=3 {
            let bytes = fill.bytes(len, rng);
            let mut script = Script::new(out, &bytes);
            (0..=8 * len).for_each(|_| script.bool());
        }
    }
}

/// Pads at each bit offset: all zero, all ones, random, and each single bit set.
fn pads(out: &mut String, rng: &mut Rng) {
    for offset in 0..=8 {
        let pad = (8 - offset) % 8;
        let single = (0..pad).map(|i| 1u64 << i);
        for value in single.chain([0, u64::MAX, rng.next()]) {
            for bytes_after in [0, 1, 9] {
                let mut bits = Bits::default();
                bits.push(rng.next(), offset);
                bits.push(value, pad);
                bits.push(rng.next(), 8 * bytes_after.min(7));
                bits.push(rng.next(), 8 * (bytes_after - bytes_after.min(7)));
                pad_case(out, &bits.bytes(), offset);
            }
        }
    }
}

/// Reads to the offset, pads twice (the second pad has nothing to do), shows what follows.
fn pad_case(out: &mut String, bytes: &[u8], offset: usize) {
    let mut script = Script::new(out, bytes);
    script.read(offset);
    script.pad();
    script.pad();
    script.read(8);
}

/// Skips of every kind of length, from positions 0 to 40, reached by a read or not at all.
fn skips(out: &mut String, rng: &mut Rng) {
    for len in (0..=12).chain([16, 17, 23, 24]) {
        for start in [0, 1, 7, 8, 9, 31, 32]
            .into_iter()
            .filter(|&s| s <= 8 * len)
        {
            let left: usize = 8 * len - start;
            for n in [
                0,
                1,
                left / 2,
                left.saturating_sub(1),
                left,
                left + 1,
                left + 8,
            ] {
                skip_case(out, rng, len, start, n);
            }
            let huge = rng.pick(&[1 << 32, 1 << 61, 1 << 63, usize::MAX - 1, usize::MAX]);
            skip_case(out, rng, len, start, huge);
        }
    }
    for n in [
        1 << 32,
        (1 << 61) - 1,
        1 << 61,
        1 << 63,
        usize::MAX - 63,
        usize::MAX,
    ] {
        for (len, start) in [(0, 0), (1, 0), (1, 5), (9, 0), (9, 32), (24, 1)] {
            skip_case(out, rng, len, start, n);
        }
    }
}

/// Reads `start` bits, skips n, and where that was allowed shows what follows.
fn skip_case(out: &mut String, rng: &mut Rng, len: usize, start: usize, n: usize) {
    let bytes = rng.bytes(len);
    let mut script = Script::new(out, &bytes);
    if start > 0 {
        script.read(start);
    }
    script.skip(n);
    if !script.over() {
        script.peek(32);
        script.read(1 + rng.below(12));
        script.pad();
    }
}

/// U64 of every form and fill, cut at every bit; the whole ones also with bits behind them.
fn u64s(out: &mut String, rng: &mut Rng) {
    for form in 0..=10 {
        for fill in [Fill::Ones, Fill::Random, Fill::Random, Fill::Zeros] {
            let mut bits = u64_bits(form, fill, rng);
            for left in 0..=bits.0.len() {
                cut_case(out, rng, &bits, left, |script| script.u64());
            }
            bits.push(rng.next(), 1 + rng.below(40));
            cut_case(out, rng, &bits, bits.0.len(), |script| script.u64());
        }
    }
}

/// The bits of one U64: forms 0 to 2 are the short selectors, 3 to 10 have 0 to 7 chunks.
fn u64_bits(form: usize, fill: Fill, rng: &mut Rng) -> Bits {
    let mut bits = Bits::default();
    bits.push(form.min(3) as u64, 2);
    let first_width = [0, 4, 8, 12][form.min(3)];
    bits.push(fill.bits(rng), first_width);
    let chunks = form.saturating_sub(3);
    for chunk in 1..=chunks {
        bits.push(1, 1);
        bits.push(fill.bits(rng), if chunk == 7 { 4 } else { 8 });
    }
    if form >= 3 && chunks < 7 {
        bits.push(0, 1);
    }
    bits
}

/// The choices that stand at the selected place: both ends of constants, widths and offsets.
const CHOICES: [Choice; 20] = [
    Choice::Constant(0),
    Choice::Constant(1),
    Choice::Constant(u32::MAX),
    Choice::Bits(0, 0),
    Choice::Bits(5, 0),
    Choice::Bits(u32::MAX, 0),
    Choice::Bits(0, 1),
    Choice::Bits(u32::MAX, 1),
    Choice::Bits(0, 2),
    Choice::Bits(3, 4),
    Choice::Bits(19, 8),
    Choice::Bits(u32::MAX - 7, 5),
    Choice::Bits(1 << 31, 16),
    Choice::Bits(0, 31),
    Choice::Bits(1 << 31, 31),
    Choice::Bits((1 << 31) + 1, 31),
    Choice::Bits(0, 32),
    Choice::Bits(1, 32),
    Choice::Bits(1 << 31, 32),
    Choice::Bits(u32::MAX, 32),
];

/// U32 with each choice at each selector, of each fill; one fill also cut at every bit.
fn u32s(out: &mut String, rng: &mut Rng) {
    for choice in CHOICES {
        for selector in 0..4 {
            for fill in FILLS {
                let mut choices = [0; 4].map(|_| rng.pick(&CHOICES));
                choices[selector] = choice;
                let bits = u32_bits(selector, choice, fill, rng);
                let full = bits.0.len();
                let cuts = if matches!(fill, Fill::Random) {
                    0..=full
                } else {
                    full..=full
                };
                for left in cuts {
                    cut_case(out, rng, &bits, left, |script| script.u32(choices));
                }
            }
        }
    }
}

/// The bits of one U32.
fn u32_bits(selector: usize, choice: Choice, fill: Fill, rng: &mut Rng) -> Bits {
    let mut bits = Bits::default();
    bits.push(selector as u64, 2);
    if let Choice::Bits(_, width) = choice {
        bits.push(fill.bits(rng), width);
    }
    bits
}

/// Lists of accepted numbers: empty, single, mixed, with a repeat, and with numbers no code gives.
const ENUM_LISTS: [&[u32]; 9] = [
    &[],
    &[0],
    &[1],
    &[0, 1, 2, 3],
    &[2, 17, 18, 81],
    &[81, 64, 33, 16, 13, 9, 1, 0],
    &[1, 10, 11, 12, 2, 2, 8, 9, 18],
    &[82, 100, u32::MAX],
    &[u32::MAX, 0, 17, 50],
];

/// Every enum value with lists it is in and not in; each selector cut at every bit.
fn enums(out: &mut String, rng: &mut Rng) {
    for value in 0..=81 {
        let bits = enum_bits(value);
        let random: Vec<u32> = (0..1 + rng.below(6))
            .map(|_| rng.below(82) as u32)
            .collect();
        let around = [value.wrapping_sub(1), value + 1];
        let others = [rng.pick(&ENUM_LISTS), rng.pick(&ENUM_LISTS)];
        let lists = [&[value][..], &around, &random, others[0], others[1]];
        for list in lists {
            cut_case(out, rng, &bits, bits.0.len(), |script| {
                script.enumeration(list)
            });
        }
    }
    for value in [0, 1, 2, 9, 17, 18, 50, 81] {
        let bits = enum_bits(value);
        for left in 0..=bits.0.len() {
            for list in ENUM_LISTS {
                cut_case(out, rng, &bits, left, |script| script.enumeration(list));
            }
        }
    }
}

/// The bits of one enum value, 0 to 81.
fn enum_bits(value: u32) -> Bits {
    let (selector, offset, width) = match value {
        0 => (0, 0, 0),
        1 => (1, 1, 0),
        2..=17 => (2, 2, 4),
        _ => (3, 18, 6),
    };
    let mut bits = Bits::default();
    bits.push(selector, 2);
    bits.push((value - offset).into(), width);
    bits
}

/// Random calls on buffers of 0 to 24 bytes, going on after refusals other than a skip's.
fn random_calls(out: &mut String, rng: &mut Rng) {
    for len in 0..=24 {
        for fill in [
            Fill::Zeros,
            Fill::Ones,
            Fill::Random,
            Fill::Random,
            Fill::Random,
        ] {
            for _ in 0..4 {
                let bytes = fill.bytes(len, rng);
                let mut script = Script::new(out, &bytes);
                if rng.below(3) == 0 {
                    go_to(&mut script, rng.below(8 * len + 1), rng);
                }
                let mut calls = 4 + len / 2;
                while calls > 0 && !script.over() {
                    random_call(&mut script, len, rng);
                    calls -= 1;
                }
            }
        }
    }
}

/// One random call of any kind; a consume comes with the peek before it.
fn random_call(script: &mut Script, len: usize, rng: &mut Rng) {
    match rng.below(11) {
        0 => script.peek(rng.below(33)),
        1 | 2 => script.read(rng.below(33)),
        3 => {
            let width = rng.below(33);
            script.peek(width);
            script.consume(rng.below(width + 1));
        }
        4 => script.skip(rng.below(2 + 2 * len)),
        5 => script.pad(),
        6 => script.bool(),
        7 => script.u32([0; 4].map(|_| rng.pick(&CHOICES))),
        8 => script.u64(),
        9 => script.enumeration(rng.pick(&ENUM_LISTS)),
        _ => script.f16(),
    }
}
