//! The files that the rows read. They are the same in every run.

/// A generator with a fixed seed.
pub struct Random(pub u64);

impl Random {
    pub fn next(&mut self) -> u64 {
        self.0 = self
            .0
            .wrapping_mul(6364136223846793005)
            .wrapping_add(1442695040888963407);
        self.0 >> 33
    }
    pub fn below(&mut self, n: u64) -> u64 {
        self.next() % n
    }
}

const SIGNATURE: &[u8] = b"\0\0\0\x0cJXL \x0d\x0a\x87\x0a";

/// `count` boxes `free` of 9 bytes, 1 of them payload: three events each.
pub fn small_boxes(count: usize) -> Vec<u8> {
    let mut file = SIGNATURE.to_vec();
    (0..count).for_each(|_| file.extend(b"\0\0\0\x09freex"));
    file
}

/// One `jxlc` box. Nothing of it is read, so what stands in it is of no account.
pub fn one_payload(mib: usize) -> Vec<u8> {
    let len = mib << 20;
    let mut file = SIGNATURE.to_vec();
    file.extend((len as u32 + 8).to_be_bytes());
    file.extend(b"jxlc");
    file.resize(file.len() + len, 0x5a);
    file
}

/// A box behind the others; one in four has a size of 64 bits.
fn put_box(file: &mut Vec<u8>, random: &mut Random, ty: &[u8; 4], payload: &[u8]) {
    if random.below(4) == 0 {
        file.extend(1u32.to_be_bytes());
        file.extend(ty);
        file.extend((payload.len() as u64 + 16).to_be_bytes());
    } else {
        file.extend((payload.len() as u32 + 8).to_be_bytes());
        file.extend(ty);
    }
    file.extend(payload);
}

/// One small file: `ftyp`, `count` boxes of every kind, and one that runs to the end of the file. The codestream is a row of
/// `jxlp`, or one `jxlc` half way.
fn mixed_file(random: &mut Random, count: usize, row: bool) -> Vec<u8> {
    let mut file = SIGNATURE.to_vec();
    put_box(&mut file, random, b"ftyp", b"jxl \0\0\0\0jxl ");
    let mut index = 0u32;
    for k in 0..count {
        let bytes = vec![0x5a; random.below(300) as usize];
        let kind = random.below(5);
        if !row && k == count / 2 {
            put_box(&mut file, random, b"jxlc", &bytes);
        } else if row && kind < 2 {
            let payload = [&index.to_be_bytes(), &bytes[..]].concat();
            put_box(&mut file, random, b"jxlp", &payload);
            index += 1;
        } else if kind == 2 {
            put_box(&mut file, random, b"brob", &[b"Exif", &bytes[..]].concat());
        } else {
            put_box(
                &mut file,
                random,
                if kind == 3 { b"xml " } else { b"jumb" },
                &bytes,
            );
        }
    }
    if row {
        file.extend(b"\0\0\0\0jxlp");
        file.extend((index | 0x8000_0000).to_be_bytes());
    } else {
        file.extend(b"\0\0\0\0Exif");
    }
    file.extend([0x5a; 100]);
    file
}

/// How many boxes each file of the mix has.
pub const MIXED_BOXES: usize = 16;

/// Small files of every kind of box: half of them with a row of `jxlp`, half with one `jxlc`.
pub fn mix(files: usize) -> Vec<Vec<u8>> {
    let mut random = Random(7);
    let one = |k| mixed_file(&mut random, MIXED_BOXES - 2, k % 2 == 0);
    (0..files).map(one).collect()
}
