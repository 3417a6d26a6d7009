//! The bytes that the rows on fields read, the same in every run.

use crate::files::Random;

/// How selectors, list entries and exponents come. At random they are what a decoder meets: no processor guesses the next one.
/// In turn they are guessed rightly, and what is left is the reading alone.
#[derive(Clone, Copy, PartialEq)]
pub enum Order {
    Random,
    InTurn,
}

/// Bits behind one another, the lowest of a byte first.
struct Bits {
    bytes: Vec<u8>,
    len: usize,
    random: Random,
    order: Order,
    /// How many fields or headers came before this one.
    turn: usize,
}

/// The bytes of `count` fields or headers put by `put`.
fn bytes(order: Order, count: u64, put: impl Fn(&mut Bits)) -> Vec<u8> {
    let mut bits = Bits {
        bytes: vec![],
        len: 0,
        random: Random(11),
        order,
        turn: 0,
    };
    for _ in 0..count {
        put(&mut bits);
        bits.turn += 1;
    }
    bits.bytes
}

impl Bits {
    fn put(&mut self, value: u64, width: usize) {
        for k in 0..width {
            if self.len % 8 == 0 {
                self.bytes.push(0);
            }
            self.bytes[self.len / 8] |= ((value >> k & 1) as u8) << (self.len % 8);
            self.len += 1;
        }
    }

    /// Any bits, up to 31 of them.
    fn any(&mut self, width: usize) {
        let value = self.random.next();
        self.put(value, width);
    }

    /// One of `n`.
    fn choose(&mut self, n: usize) -> usize {
        match self.order {
            Order::Random => self.random.below(n as u64) as usize,
            Order::InTurn => self.turn % n,
        }
    }

    /// A U32 whose choices have so many bits.
    fn u32(&mut self, widths: [usize; 4]) {
        let selector = self.choose(4);
        self.put(selector as u64, 2);
        self.any(widths[selector]);
    }

    /// A U64 of one of five lengths: 2, 6, 10, 15 and 24 bits.
    fn u64(&mut self) {
        let form = self.choose(5);
        self.put(form.min(3) as u64, 2);
        self.any([0, 4, 8, 12, 12][form]);
        if form == 4 {
            self.put(1, 1);
            self.any(8);
        }
        if form >= 3 {
            self.put(0, 1);
        }
    }

    /// An Enum out of the list.
    fn enumerated(&mut self, list: &[u64]) {
        match list[self.choose(list.len())] {
            v @ (0 | 1) => self.put(v, 2),
            v @ 2..18 => self.put(2 | (v - 2) << 2, 6),
            v => self.put(3 | (v - 18) << 2, 8),
        }
    }

    /// An F16 that is a number.
    fn f16(&mut self) {
        let exponent = self.choose(31);
        self.any(10);
        self.put(exponent as u64, 5);
        self.any(1);
    }
}

/// Bytes for `count` fields, of up to 128 bits, in which any bits will do.
pub fn any(count: u64) -> Vec<u8> {
    let sixteen = |bits: &mut Bits| bits.any(16);
    bytes(Order::Random, count * 8, sixteen)
}

/// U32 fields of 1, 2 bits, 3 + 4 bits, 19 + 8 bits.
pub fn u32(order: Order, count: u64) -> Vec<u8> {
    bytes(order, count, |bits| bits.u32([0, 2, 4, 8]))
}

pub fn u64(order: Order, count: u64) -> Vec<u8> {
    bytes(order, count, |bits| bits.u64())
}

/// Enums out of the transfer functions.
pub fn enumerated(order: Order, count: u64) -> Vec<u8> {
    bytes(order, count, |bits| {
        bits.enumerated(&[1, 2, 8, 13, 16, 17, 18])
    })
}

pub fn f16(order: Order, count: u64) -> Vec<u8> {
    bytes(order, count, |bits| bits.f16())
}

/// Headers of a size (a flag, a height, a ratio, a width) and of what may follow (an orientation, a depth, a colour space, a
/// brightness, extensions).
pub fn header(order: Order, count: u64) -> Vec<u8> {
    bytes(order, count, |bits| {
        bits.any(1);
        bits.u32([9, 13, 18, 30]);
        bits.any(3);
        bits.u32([9, 13, 18, 30]);
        bits.any(3);
        bits.u32([0, 0, 0, 6]);
        bits.enumerated(&[0, 1, 2, 3]);
        bits.f16();
        bits.u64();
    })
}
