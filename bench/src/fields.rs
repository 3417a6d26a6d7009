//! The Rust's side of the rows on fields.

use jxl_bitstream::{Bitstream, BitstreamResult, U};

/// Widths 1 to `most` in turn.
fn wider(width: usize, most: usize) -> usize {
    if width < most { width + 1 } else { 1 }
}

/// Reads `count` fields by `read`, and sums their values; stops where one is refused.
fn sum(
    bytes: &[u8],
    count: u64,
    mut read: impl FnMut(&mut Bitstream) -> BitstreamResult<u64>,
) -> u64 {
    let mut stream = Bitstream::new(bytes);
    let mut sum = 0u64;
    for _ in 0..count {
        let Ok(value) = read(&mut stream) else {
            return sum;
        };
        sum = sum.wrapping_add(value);
    }
    sum
}

/// `read_bits` of 1 to 32 bits in turn.
pub fn read_bits(bytes: &[u8], count: u64) -> u64 {
    let mut width = 0;
    sum(bytes, count, |stream| {
        width = wider(width, 32);
        Ok(stream.read_bits(width)? as u64)
    })
}

/// `peek_bits`, then `consume_bits`, of 1 to 32 bits in turn.
pub fn peek(bytes: &[u8], count: u64) -> u64 {
    let mut width = 0;
    sum(bytes, count, |stream| {
        width = wider(width, 32);
        let value = stream.peek_bits(width);
        stream.consume_bits(width)?;
        Ok(value as u64)
    })
}

/// `skip_bits` of 1 to 128 bits in turn: the sum of the places.
pub fn skip(bytes: &[u8], count: u64) -> u64 {
    let mut width = 0;
    sum(bytes, count, |stream| {
        width = wider(width, 128);
        stream.skip_bits(width)?;
        Ok(stream.num_read_bits() as u64)
    })
}

pub fn bool(bytes: &[u8], count: u64) -> u64 {
    sum(bytes, count, |stream| Ok(stream.read_bool()? as u64))
}

/// `read_u32` of 1, 2 bits, 3 + 4 bits, 19 + 8 bits.
pub fn u32(bytes: &[u8], count: u64) -> u64 {
    sum(bytes, count, |stream| {
        Ok(stream.read_u32(1, U(2), 3 + U(4), 19 + U(8))? as u64)
    })
}

pub fn u64(bytes: &[u8], count: u64) -> u64 {
    sum(bytes, count, |stream| stream.read_u64())
}

/// An enum as a decoder has it: its numbers, and the way from a number back to it.
macro_rules! enumerated {
    ($name:ident: $($case:ident = $number:literal),*) => {
        #[derive(Clone, Copy)]
        enum $name {
            $($case = $number),*
        }
        impl TryFrom<u32> for $name {
            type Error = u32;
            fn try_from(number: u32) -> Result<Self, u32> {
                match number {
                    $($number => Ok($name::$case),)*
                    _ => Err(number),
                }
            }
        }
    };
}
enumerated!(Transfer: Bt709 = 1, Unknown = 2, Linear = 8, Srgb = 13, Pq = 16, Dci = 17, Hlg = 18);
enumerated!(Colour: Rgb = 0, Grey = 1, Xyb = 2, Unknown = 3);

/// `read_enum` of the transfer functions.
pub fn enumerated(bytes: &[u8], count: u64) -> u64 {
    sum(bytes, count, |stream| {
        Ok(stream.read_enum::<Transfer>()? as u64)
    })
}

/// `read_f16_as_f32`: the sum of the numbers, by its bits.
pub fn f16(bytes: &[u8], count: u64) -> u64 {
    let mut stream = Bitstream::new(bytes);
    let mut sum = 0f32;
    for _ in 0..count {
        let Ok(value) = stream.read_f16_as_f32() else {
            break;
        };
        sum += value;
    }
    sum.to_bits() as u64
}

/// A size as an image header has it: a flag, a height, a ratio of 3 bits, a width. The sum of the four.
fn size_header(stream: &mut Bitstream) -> BitstreamResult<u64> {
    let small = stream.read_bool()? as u64;
    let height = stream.read_u32(1 + U(9), 1 + U(13), 1 + U(18), 1 + U(30))? as u64;
    let ratio = stream.read_bits(3)? as u64;
    let width = stream.read_u32(1 + U(9), 1 + U(13), 1 + U(18), 1 + U(30))? as u64;
    Ok(small + height + ratio + width)
}

/// What may follow: an orientation of 3 bits, a depth, a colour space, a brightness, extensions. The sum of all but the
/// brightness, which counts 1 where it is above 255.
fn metadata(stream: &mut Bitstream) -> BitstreamResult<u64> {
    let orientation = stream.read_bits(3)? as u64;
    let depth = stream.read_u32(8, 10, 12, 1 + U(6))? as u64;
    let colour = stream.read_enum::<Colour>()? as u64;
    let bright = (stream.read_f16_as_f32()? > 255.0) as u64;
    let extensions = stream.read_u64()?;
    Ok((orientation + depth + colour + bright).wrapping_add(extensions))
}

/// Headers of a size and of what may follow.
pub fn header(bytes: &[u8], count: u64) -> u64 {
    sum(bytes, count, |stream| {
        let size = size_header(stream)?;
        Ok(size.wrapping_add(metadata(stream)?))
    })
}
