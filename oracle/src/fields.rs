//! The script of the field readers: each call goes to the Rust, its answer becomes a line.

use jxl_bitstream::{Bitstream, Error, U32Specifier};
use std::cell::RefCell;
use std::fmt::Write;

/// One choice of a U32, in a form that can be shown.
#[derive(Clone, Copy)]
pub enum Choice {
    Constant(u32),
    Bits(u32, usize),
}

impl Choice {
    /// The choice as the Rust takes it.
    fn specifier(self) -> U32Specifier {
        match self {
            Choice::Constant(x) => U32Specifier::Constant(x),
            Choice::Bits(offset, width) => U32Specifier::BitsOffset(offset, in_domain(width)),
        }
    }

    /// The choice as the script shows it.
    fn text(self) -> String {
        match self {
            Choice::Constant(x) => format!("c{x}"),
            Choice::Bits(offset, width) => format!("{offset}+{width}"),
        }
    }
}

thread_local! {
    /// The numbers that `Listed` accepts just now: the Rust knows an enum only by its TryFrom.
    static ACCEPTED: RefCell<Vec<u32>> = const { RefCell::new(Vec::new()) };
}

/// Stands for every enum: a number that is in the list.
struct Listed(u32);

impl TryFrom<u32> for Listed {
    type Error = ();

    fn try_from(value: u32) -> Result<Self, ()> {
        let found = ACCEPTED.with_borrow(|list| list.contains(&value));
        if found { Ok(Listed(value)) } else { Err(()) }
    }
}

/// A buffer, the Rust's reader on it, and the text where the lines go.
pub struct Script<'out, 'buf> {
    out: &'out mut String,
    reader: Bitstream<'buf>,
    peeked: Option<usize>, // the width of the peek just before, for the domain of consume
    over: bool,            // a skip was refused: the domain ends there
}

impl<'out, 'buf> Script<'out, 'buf> {
    /// A new buffer, position 0.
    pub fn new(out: &'out mut String, bytes: &'buf [u8]) -> Self {
        let space = if bytes.is_empty() { "" } else { " " };
        writeln!(out, "n{space}{}", hex(bytes)).unwrap();
        Self {
            out,
            reader: Bitstream::new(bytes),
            peeked: None,
            over: false,
        }
    }

    /// Whether a skip was refused, so that no call may follow.
    pub fn over(&self) -> bool {
        self.over
    }

    pub fn peek(&mut self, n: usize) {
        let answer = Ok(self.reader.peek_bits(in_domain(n)).to_string());
        self.line(format!("k {n}"), answer);
        self.peeked = Some(n);
    }

    pub fn read(&mut self, n: usize) {
        let answer = self.reader.read_bits(in_domain(n)).map(|v| v.to_string());
        self.line(format!("r {n}"), answer);
    }

    /// A consume, only right after a peek that is at least as wide.
    pub fn consume(&mut self, n: usize) {
        assert!(
            self.peeked.is_some_and(|width| n <= width),
            "outside the domain"
        );
        let answer = self.reader.consume_bits(n).map(|()| String::new());
        self.line(format!("c {n}"), answer);
    }

    pub fn skip(&mut self, n: usize) {
        let answer = self.reader.skip_bits(n).map(|()| String::new());
        let refused = answer.is_err();
        self.line(format!("s {n}"), answer);
        self.over = refused;
    }

    pub fn pad(&mut self) {
        let answer = self.reader.zero_pad_to_byte().map(|()| String::new());
        self.line("z".to_string(), answer);
    }

    pub fn bool(&mut self) {
        let answer = self.reader.read_bool().map(|v| u32::from(v).to_string());
        self.line("b".to_string(), answer);
    }

    pub fn u32(&mut self, choices: [Choice; 4]) {
        let [d0, d1, d2, d3] = choices.map(Choice::specifier);
        let answer = self.reader.read_u32(d0, d1, d2, d3).map(|v| v.to_string());
        self.line(format!("w {}", choices.map(Choice::text).join(" ")), answer);
    }

    pub fn u64(&mut self) {
        let answer = self.reader.read_u64().map(|v| v.to_string());
        self.line("q".to_string(), answer);
    }

    /// A read_enum that accepts the numbers of `list`.
    pub fn enumeration(&mut self, list: &[u32]) {
        ACCEPTED.set(list.to_vec());
        let answer = self.reader.read_enum::<Listed>().map(|v| v.0.to_string());
        let numbers: Vec<String> = list.iter().map(u32::to_string).collect();
        let shown = if list.is_empty() {
            "-".to_string()
        } else {
            numbers.join(",")
        };
        self.line(format!("e {shown}"), answer);
    }

    pub fn f16(&mut self) {
        let answer = self
            .reader
            .read_f16_as_f32()
            .map(|v| format!("{:08x}", v.to_bits()));
        self.line("f".to_string(), answer);
    }

    /// Writes one line: the call, its value or refusal if there is one, the position after it.
    fn line(&mut self, call: String, answer: Result<String, Error>) {
        assert!(!self.over, "no call may follow a refused skip");
        self.peeked = None;
        let answer = answer.unwrap_or_else(refusal);
        let space = if answer.is_empty() { "" } else { " " };
        let place = self.reader.num_read_bits();
        writeln!(self.out, "{call} = {answer}{space}{place}").unwrap();
    }
}

/// A width, which in the domain is at most 32.
fn in_domain(width: usize) -> usize {
    assert!(width <= 32, "outside the domain");
    width
}

/// The script's word for a refusal.
fn refusal(error: Error) -> String {
    match error {
        Error::InvalidEnum { value, .. } => format!("enum {value}"),
        Error::NonZeroPadding => "pad".to_string(),
        Error::InvalidFloat => "float".to_string(),
        _ if error.unexpected_eof() => "eof".to_string(),
        _ => panic!("no field gives this error: {error:?}"),
    }
}

/// Bytes as lower-case hex, two digits each.
pub fn hex(bytes: &[u8]) -> String {
    bytes.iter().map(|b| format!("{b:02x}")).collect()
}

/// A prime, so that no part that all the answers share can vanish from the checksum.
const SUM_MODULUS: u64 = 4_294_967_291;

/// The checksum line of the 1,024 F16 codes that begin with the six bits `top`.
pub fn float_sum(out: &mut String, top: u16) {
    let mut sum = 0u64;
    for mantissa in 0..1024 {
        let code = (top * 1024 + mantissa).to_le_bytes();
        let bits = match Bitstream::new(&code).read_f16_as_f32() {
            Ok(v) => v.to_bits(),
            Err(Error::InvalidFloat) => 0xffff_ffff,
            Err(error) => panic!("two bytes are enough: {error:?}"),
        };
        sum = (sum * 31 + u64::from(bits)) % SUM_MODULUS;
    }
    writeln!(out, "F {top} = {sum:08x}").unwrap();
}
