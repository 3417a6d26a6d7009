//! The drivers of the proved library: `crates/bench_steps`, `bench_twice`, `bench_turns` and `bench_fields`.

/// A proved loop has to end: no file of the bench comes near so many turns.
const MOST: u64 = u64::MAX;

mod linked {
    unsafe extern "C" {
        pub fn bench_steps(file: *const u8, len: usize, packet: usize, most: u64) -> u64;
        pub fn bench_twice(file: *const u8, len: usize, packet: usize, most: u64) -> u64;
        pub fn bench_turns(
            file: *const u8,
            len: usize,
            packet: usize,
            out: *mut u8,
            room: usize,
            most: u64,
        ) -> usize;
        pub fn bench_read_bits(bytes: *const u8, len: usize, count: u64) -> u64;
        pub fn bench_peek(bytes: *const u8, len: usize, count: u64) -> u64;
        pub fn bench_skip(bytes: *const u8, len: usize, count: u64) -> u64;
        pub fn bench_bool(bytes: *const u8, len: usize, count: u64) -> u64;
        pub fn bench_u32(bytes: *const u8, len: usize, count: u64) -> u64;
        pub fn bench_u64(bytes: *const u8, len: usize, count: u64) -> u64;
        pub fn bench_enum(bytes: *const u8, len: usize, count: u64) -> u64;
        pub fn bench_f16(bytes: *const u8, len: usize, count: u64) -> f32;
        pub fn bench_header(bytes: *const u8, len: usize, count: u64) -> u64;
    }
}

/// Events and payload lengths; `step` called from one place.
pub fn steps(file: &[u8], packet: usize) -> u64 {
    unsafe { linked::bench_steps(file.as_ptr(), file.len(), packet, MOST) }
}

/// The same; `step` called from two places.
pub fn twice(file: &[u8], packet: usize) -> u64 {
    unsafe { linked::bench_twice(file.as_ptr(), file.len(), packet, MOST) }
}

/// The lines of a file: how many bytes they have. Where `out` has room for all of them, they stand there.
pub fn turns(file: &[u8], packet: usize, out: &mut [u8]) -> usize {
    let (from, room) = (out.as_mut_ptr(), out.len());
    unsafe { linked::bench_turns(file.as_ptr(), file.len(), packet, from, room, MOST) }
}

/// One function for each driver that reads `count` fields and sums their values.
macro_rules! fields {
    ($($name:ident = $driver:ident),*) => {$(
        pub fn $name(bytes: &[u8], count: u64) -> u64 {
            unsafe { linked::$driver(bytes.as_ptr(), bytes.len(), count) }
        }
    )*};
}
fields!(
    read_bits = bench_read_bits,
    peek = bench_peek,
    skip = bench_skip,
    bool = bench_bool,
    u32 = bench_u32,
    u64 = bench_u64,
    enumerated = bench_enum,
    header = bench_header
);

/// The sum of the floats, by its bits.
pub fn f16(bytes: &[u8], count: u64) -> u64 {
    unsafe { linked::bench_f16(bytes.as_ptr(), bytes.len(), count) }.to_bits() as u64
}
