//! The files of the list `boxes`: whole, cut short, damaged and odd ones.

use crate::rng::Rng;
use jxl_bitstream::consts::{CODESTREAM_SIG, CONTAINER_SIG};
use std::collections::HashSet;

type Bytes = Vec<u8>;

/// Types that the parser treats alike: plain auxiliary boxes.
const PLAIN: [&[u8; 4]; 9] = [
    b"Exif", b"xml ", b"ftyp", b"JXL ", b"jbrd", b"jxll", b"jxli", b"jumb", b"jhgm",
];

/// Types that stand inside `brob`: reserved ones, then free ones, some of them nearly reserved.
const INNER: [&[u8; 4]; 22] = [
    b"jxlc",
    b"jxlp",
    b"jxll",
    b"jxli",
    b"jxl ",
    b"jxl\0",
    b"jxl\xff",
    b"brob",
    b"jbrd",
    b"Exif",
    b"xml ",
    b"jumb",
    b"ftyp",
    b"JXL ",
    b"jhgm",
    b"jxm ",
    b"jXlc",
    b"brod",
    b"jbrc",
    b"kxlc",
    b"\0\0\0\0",
    b"\xff\xff\xff\xff",
];

/// All files, none twice.
pub fn files(rng: &mut Rng) -> Vec<Bytes> {
    let mut all = worked_pieces();
    all.extend(signatures(rng));
    all.extend(short_sizes(rng));
    all.extend(extended_sizes(rng));
    all.extend(codestream_orders(rng));
    all.extend(brobs(rng));
    all.extend(to_the_end(rng));
    all.extend(partial_headers(rng));
    all.extend(cut_and_damaged(rng));
    all.extend(random_files(rng));
    let mut seen = HashSet::new();
    all.retain(|file| seen.insert(file.clone()));
    all
}

/// A box with any 32-bit size, whatever its payload is.
fn sized(size: u32, ty: &[u8; 4], payload: &[u8]) -> Bytes {
    [&size.to_be_bytes()[..], ty, payload].concat()
}

/// A box with any extended size, whatever its payload is.
fn extended(size: u64, ty: &[u8; 4], payload: &[u8]) -> Bytes {
    [&[0, 0, 0, 1][..], ty, &size.to_be_bytes(), payload].concat()
}

/// A box whose size is right.
fn whole(ty: &[u8; 4], payload: &[u8]) -> Bytes {
    sized(8 + payload.len() as u32, ty, payload)
}

/// A `jxlp` box whose size is right; bit 31 of `index` marks the last one.
fn jxlp(index: u32, payload: &[u8]) -> Bytes {
    whole(b"jxlp", &[&index.to_be_bytes()[..], payload].concat())
}

/// A container file with these boxes.
fn container(boxes: &[Bytes]) -> Bytes {
    [&CONTAINER_SIG[..], &boxes.concat()].concat()
}

/// Random bytes, 0 to `most` of them.
fn some(most: usize, rng: &mut Rng) -> Bytes {
    let len = rng.below(most + 1);
    rng.bytes(len)
}

/// The payload's first bytes that let a box of this type go on: an index 0, or a free inner type.
fn opening(ty: &[u8; 4]) -> &'static [u8] {
    match ty {
        b"jxlp" => &[0, 0, 0, 0],
        b"brob" => b"Exif",
        _ => &[],
    }
}

/// The worked pieces of document 01, but for the 15 bytes that are outside the domain.
fn worked_pieces() -> Vec<Bytes> {
    let boxes = [
        sized(8, b"jxlc", b""),
        sized(8, b"jxlc", b"\0"),
        sized(7, b"Exif", b""),
        sized(8, b"Exif", b""),
        extended(15, b"Exif", b""),
        extended(16, b"Exif", b""),
        sized(11, b"jxlp", b""),
        sized(12, b"jxlp", b"\0\0\0\x01"),
        sized(12, b"jxlp", b"\x80\0\0\0"),
        sized(12, b"jxlp", b"\x80\0\0\0\0"),
        sized(11, b"brob", b""),
        sized(12, b"brob", b"jxlc"),
        sized(12, b"brob", b"Exif"),
        [
            whole(b"ftyp", b"jxl \0\0\0\0jxl "),
            sized(0, b"jxlc", b"abc"),
        ]
        .concat(),
    ];
    let bare = [vec![], vec![0xff], CODESTREAM_SIG.to_vec(), vec![1]];
    bare.into_iter()
        .chain(boxes.map(|b| container(&[b])))
        .collect()
}

/// Signatures whole, cut at each length and damaged at each place; bare and invalid files.
fn signatures(rng: &mut Rng) -> Vec<Bytes> {
    let mut all = vec![vec![0x0a], vec![0xff, 0xff]];
    for sig in [&CODESTREAM_SIG[..], &CONTAINER_SIG] {
        for len in 0..=sig.len() {
            all.push(sig[..len].to_vec());
            all.push([&sig[..len], &[0x5a]].concat());
            all.push([&sig[..len], &[0xff]].concat());
            all.push([&sig[..len], &rng.bytes(2)].concat());
        }
        for place in 0..sig.len() {
            let mut damaged = sig.to_vec();
            damaged[place] ^= 1 << rng.below(8);
            all.push(damaged[..=place].to_vec());
            all.push(damaged.clone());
            all.push([damaged, some(12, rng)].concat());
        }
    }
    for len in 0..20 {
        all.push([&CODESTREAM_SIG[..], &rng.bytes(len)].concat());
        all.push(rng.bytes(len));
    }
    all.push([&CODESTREAM_SIG[..], &CONTAINER_SIG, &whole(b"Exif", b"ab")].concat());
    all
}

/// 32-bit sizes 0 to 17 and large ones, for every type, with a payload that goes on and without.
fn short_sizes(rng: &mut Rng) -> Vec<Bytes> {
    let types: Vec<&[u8; 4]> = [b"jxlc", b"jxlp", b"brob"]
        .into_iter()
        .chain(PLAIN)
        .collect();
    let mut all = vec![];
    for ty in types {
        let sizes = (0..=17).chain([40, 0x7fff_ffff, 0x8000_0000, u32::MAX]);
        for size in sizes {
            let rest = [opening(ty), &rng.bytes(10)].concat();
            all.push(container(&[sized(size, ty, &rest)]));
            let payload: Bytes = rest
                .iter()
                .copied()
                .take(size.saturating_sub(8) as usize)
                .collect();
            let behind = rng.pick(&[&b""[..], b"\0", b"\0\0\0\x09Exifx"]);
            all.push(container(&[sized(size, ty, &payload), behind.to_vec()]));
        }
    }
    all
}

/// 64-bit sizes 0 to 17, 16 + n and huge, for types of every treatment.
fn extended_sizes(rng: &mut Rng) -> Vec<Bytes> {
    let mut all = vec![];
    let huge = [
        1 << 31,
        1 << 32,
        (1 << 32) + 16,
        (1 << 32) + 20,
        1 << 63,
        u64::MAX - 15,
        u64::MAX,
    ];
    for ty in [b"jxlc", b"jxlp", b"brob", b"Exif", b"JXL "] {
        for size in (0..=30).chain(huge) {
            let rest = [opening(ty), &rng.bytes(8)].concat();
            all.push(container(&[extended(size, ty, &rest)]));
            let payload: Bytes = rest
                .iter()
                .copied()
                .take(size.saturating_sub(16) as usize)
                .collect();
            let behind = rng.pick(&[&b""[..], b"\0", b"\0\0\0\x09Exifx", b"\0\0\0\0jxlc\xff\x0a"]);
            all.push(container(&[extended(size, ty, &payload), behind.to_vec()]));
        }
    }
    for inner in [b"jxlc", b"jbrd", b"brob", b"xml "] {
        all.push(container(&[
            extended(20, b"brob", inner),
            whole(b"Exif", b""),
        ]));
    }
    for len in 0..16 {
        let header = extended(16 + rng.below(9) as u64, b"Exif", b"");
        all.push(container(&[
            whole(b"xml ", &some(3, rng)),
            header[..len].to_vec(),
        ]));
    }
    all
}

/// The codestream boxes that stand in every order; None is a `jxlc`.
const CODE_BOXES: [Option<u32>; 7] = [
    None,
    Some(0),
    Some(1),
    Some(2),
    Some(0x8000_0000),
    Some(0x8000_0001),
    Some(0x8000_0002),
];

/// One codestream box with a short payload, now and then with an extended size.
fn code_box(index: Option<u32>, rng: &mut Rng) -> Bytes {
    let payload = some(2, rng);
    match index {
        Some(index) if rng.below(12) == 0 => {
            let rest = [&index.to_be_bytes()[..], &payload].concat();
            extended(16 + rest.len() as u64, b"jxlp", &rest)
        }
        Some(index) => jxlp(index, &payload),
        None => whole(b"jxlc", &payload),
    }
}

/// Every order of up to three `jxlc` and `jxlp`, long right runs, and random orders of four or more.
fn codestream_orders(rng: &mut Rng) -> Vec<Bytes> {
    let mut orders = vec![];
    for a in CODE_BOXES {
        orders.push(vec![a]);
        for b in CODE_BOXES {
            orders.push(vec![a, b]);
            orders.extend(CODE_BOXES.map(|c| vec![a, b, c]));
        }
    }
    let third = |index| vec![Some(0), Some(1), Some(2), index]; // right so far
    orders.extend((0..6).map(|i| third(Some(i))));
    orders.extend((0..6).map(|i| third(Some(0x8000_0000 + i))));
    orders.extend([third(None), third(Some(0x7fff_ffff)), third(Some(u32::MAX))]);
    for _ in 0..60 {
        orders.push((0..4).map(|_| rng.pick(&CODE_BOXES)).collect());
    }
    for indices in [
        [0x4000_0000; 2],
        [0x7fff_ffff; 2],
        [u32::MAX; 2],
        [0, 0x8000_0100],
    ] {
        orders.push(indices.map(Some).to_vec());
    }
    orders.iter().map(|order| order_file(order, rng)).collect()
}

/// A file with codestream boxes in this order, with an auxiliary box between or behind for some.
fn order_file(order: &[Option<u32>], rng: &mut Rng) -> Bytes {
    let mut boxes: Vec<Bytes> = order.iter().map(|&index| code_box(index, rng)).collect();
    if rng.below(4) == 0 {
        let aux = whole(rng.pick(&PLAIN), &some(2, rng));
        boxes.insert(rng.below(boxes.len() + 1), aux);
    }
    if rng.below(4) == 0 {
        boxes.push(vec![0]);
    }
    container(&boxes)
}

/// `brob` around each inner type: sizes 8 to 13, to the end, and followed by a codestream.
fn brobs(rng: &mut Rng) -> Vec<Bytes> {
    let mut all = vec![];
    for inner in INNER {
        let rest = [&inner[..], &rng.bytes(4)].concat();
        for size in [0, 8, 9, 10, 11, 12, 13] {
            all.push(container(&[sized(size, b"brob", &rest)]));
        }
        all.push(container(&[
            whole(b"brob", inner),
            whole(b"jxlc", &some(3, rng)),
        ]));
        all.push(container(&[
            whole(b"brob", &rest),
            sized(0, b"jxlc", &some(3, rng)),
        ]));
        let cut = 1 + rng.below(3);
        all.push(container(&[whole(b"brob", &inner[..cut])]));
        all.push(container(&[sized(12, b"brob", &inner[..cut])]));
        all.push(container(&[sized(0, b"brob", &inner[..cut])]));
        all.push(container(&[sized(0, b"brob", inner)]));
    }
    all
}

/// Boxes to the end of every kind, with payloads of 0, 1 and a few bytes, alone and behind others.
fn to_the_end(rng: &mut Rng) -> Vec<Bytes> {
    let mut all = vec![];
    for ty in [b"jxlc", b"brob", b"jxlp"].into_iter().chain(PLAIN) {
        for len in [0, 1, 2, 7] {
            let last = sized(0, ty, &[opening(ty), &rng.bytes(len)].concat());
            all.push(container(std::slice::from_ref(&last)));
            let before = whole(rng.pick(&PLAIN), &some(6, rng));
            all.push(container(&[before, last]));
        }
    }
    for index in [0, 1, 2, 0x8000_0000, 0x8000_0001] {
        let rest = [&u32::to_be_bytes(index)[..], &rng.bytes(3)].concat();
        for len in 0..=rest.len() {
            all.push(container(&[sized(0, b"jxlp", &rest[..len])]));
            all.push(container(&[jxlp(0, b"x"), sized(0, b"jxlp", &rest[..len])]));
        }
    }
    all
}

/// Whole boxes followed by the first bytes of a header, at each length.
fn partial_headers(rng: &mut Rng) -> Vec<Bytes> {
    let mut all = vec![];
    let next = whole(b"xml ", b"");
    for len in 0..=8 {
        let part = next[..len].to_vec();
        all.push(container(std::slice::from_ref(&part)));
        all.push(container(&[whole(b"Exif", &some(3, rng)), part.clone()]));
        all.push(container(&[whole(b"Exif", b""), part.clone()]));
        all.push(container(&[whole(b"jxlc", &some(3, rng)), part.clone()]));
        all.push(container(&[whole(b"jxlc", b""), part.clone()]));
        all.push(container(&[jxlp(0, &some(2, rng)), part.clone()]));
        all.push(container(&[jxlp(0x8000_0000, b""), part.clone()]));
        all.push(container(&[whole(b"brob", b"xml "), part.clone()]));
    }
    all
}

/// A few sound files.
fn sound_files() -> Vec<Bytes> {
    let ftyp = whole(b"ftyp", b"jxl \0\0\0\0jxl ");
    let code = b"\xff\x0a\x7f";
    vec![
        container(&[ftyp.clone(), sized(0, b"jxlc", code)]),
        container(&[
            whole(b"jxll", b"\x0a"),
            jxlp(0, code),
            jxlp(0x8000_0001, b"yz"),
        ]),
        container(&[
            whole(b"brob", b"Exif\x8b"),
            whole(b"jxlc", code),
            whole(b"xml ", b"<>"),
        ]),
        container(&[ftyp, extended(19, b"jxlc", code), whole(b"jbrd", b"")]),
    ]
}

/// The sound files cut at each length, and with one byte changed at each place.
fn cut_and_damaged(rng: &mut Rng) -> Vec<Bytes> {
    let mut all = vec![];
    for file in sound_files() {
        for place in 0..file.len() {
            all.push(file[..place].to_vec());
            let mut damaged = file.clone();
            damaged[place] ^= 1 << rng.below(8);
            all.push(damaged);
        }
        all.push(file);
    }
    all
}

/// Random rows of boxes, some of them then cut short or damaged.
fn random_files(rng: &mut Rng) -> Vec<Bytes> {
    (0..500).map(|_| random_file(rng)).collect()
}

fn random_file(rng: &mut Rng) -> Bytes {
    let mut index = 0;
    let boxes: Vec<Bytes> = (0..1 + rng.below(4))
        .map(|_| random_box(&mut index, rng))
        .collect();
    let mut file = container(&boxes);
    let place = 12 + rng.below(file.len() - 11);
    match rng.below(6) {
        0 => file.truncate(place),
        1 if place < file.len() => file[place] ^= 1 << rng.below(8),
        2 => file.extend(some(4, rng)),
        _ => {}
    }
    file
}

/// A random box; `index` is the next index that a `jxlp` ought to have.
fn random_box(index: &mut u32, rng: &mut Rng) -> Bytes {
    match rng.below(10) {
        0 | 1 => {
            let last = if rng.below(4) == 0 { 0x8000_0000 } else { 0 };
            *index += 1;
            jxlp(*index - 1 + last, &some(5, rng))
        }
        2 => whole(b"jxlc", &some(6, rng)),
        3 => whole(b"brob", &[&rng.pick(&INNER)[..], &some(4, rng)].concat()),
        4 => {
            let payload = some(5, rng);
            extended(16 + payload.len() as u64, rng.pick(&PLAIN), &payload)
        }
        5 if rng.below(2) == 0 => sized(0, rng.pick(&PLAIN), &some(6, rng)),
        5 => sized(0, b"jxlc", &some(6, rng)),
        6 => whole(&[0; 4].map(|_| rng.next() as u8), &some(6, rng)),
        _ => whole(rng.pick(&PLAIN), &some(6, rng)),
    }
}
