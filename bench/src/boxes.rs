//! The Rust's side of the rows on boxes: `feed_bytes`, and the listing written by hand over it.

use jxl_bitstream::{ContainerParser, ParseEvent};

/// Feeds a file in packets, each behind the bytes left unread, and hands each event to `take`, with the place in the file of the
/// input that it comes from, and that input.
fn feed<'a>(file: &'a [u8], packet: usize, mut take: impl FnMut(ParseEvent<'a>, usize, &'a [u8])) {
    let mut parser = ContainerParser::new();
    let (mut at, mut end) = (0, file.len().min(packet));
    loop {
        let input = &file[at..end];
        for event in parser.feed_bytes(input) {
            take(event.unwrap(), at, input);
        }
        at += parser.previous_consumed_bytes();
        if end == file.len() {
            return;
        }
        end = file.len().min(end + packet);
    }
}

/// All events of a file: 1 for each, and the payloads' lengths.
pub fn events(file: &[u8], packet: usize) -> u64 {
    let mut sum = 0;
    feed(file, packet, |event, _, _| {
        sum += match event {
            ParseEvent::Codestream(part) | ParseEvent::AuxBoxData(_, part) => 1 + part.len() as u64,
            _ => 1,
        }
    });
    sum
}

/// A payload part that is held until it is known what follows it.
enum Held {
    Nothing,
    Code(usize, usize),
    Data(u32, usize, usize),
}

/// Lines one behind the other in a buffer that is emptied where the next one may have no room.
pub struct Lines {
    pub out: Vec<u8>,
    room: usize,
    written: usize,
    held: Held,
}

/// No line is longer.
const LONGEST: usize = 56;

impl Lines {
    pub fn new(room: usize) -> Self {
        let out = Vec::with_capacity(room);
        Lines {
            out,
            room,
            written: 0,
            held: Held::Nothing,
        }
    }

    /// Starts a line with its first word.
    fn word(&mut self, word: &[u8]) {
        if self.out.len() + LONGEST > self.room {
            self.written += self.out.len();
            self.out.clear();
        }
        self.out.extend_from_slice(word);
    }

    /// A box type in hex.
    fn hex(&mut self, ty: u32) {
        let digit = |k| b"0123456789abcdef"[(ty >> (28 - 4 * k) & 15) as usize];
        let digits: [u8; 8] = std::array::from_fn(digit);
        self.out.extend_from_slice(&digits);
    }

    /// A tab and a number.
    fn number(&mut self, mut n: usize) {
        let (mut digits, mut k) = ([0; 20], 20);
        loop {
            k -= 1;
            digits[k] = b'0' + (n % 10) as u8;
            n /= 10;
            if n == 0 {
                break;
            }
        }
        self.out.push(b'\t');
        self.out.extend_from_slice(&digits[k..]);
    }

    /// The line of what is held.
    fn flush(&mut self) {
        match std::mem::replace(&mut self.held, Held::Nothing) {
            Held::Nothing => return,
            Held::Code(at, len) => {
                self.word(b"code");
                self.number(at);
                self.number(len);
            }
            Held::Data(ty, at, len) => {
                self.word(b"data\t");
                self.hex(ty);
                self.number(at);
                self.number(len);
            }
        }
        self.out.push(b'\n');
    }

    /// A part of the codestream: joined to the one held, or held in its turn.
    fn code(&mut self, place: usize, len: usize) {
        match &mut self.held {
            Held::Code(at, n) if *at + *n == place => *n += len,
            _ => {
                self.flush();
                self.held = Held::Code(place, len);
            }
        }
    }

    /// A part of a side box: joined to the one held, or held in its turn.
    fn data(&mut self, ty: u32, place: usize, len: usize) {
        match &mut self.held {
            Held::Data(of, at, n) if *of == ty && *at + *n == place => *n += len,
            _ => {
                self.flush();
                self.held = Held::Data(ty, place, len);
            }
        }
    }

    /// The line of an event that is no payload.
    fn other(&mut self, event: ParseEvent) {
        self.flush();
        match event {
            ParseEvent::BitstreamKind(_) => self.word(b"kind\tcontainer"),
            ParseEvent::NoMoreAuxBox => self.word(b"nomore"),
            ParseEvent::AuxBoxStart {
                ty,
                brotli_compressed,
                last_box,
            } => {
                self.word(b"start\t");
                self.hex(u32::from_be_bytes(ty.0));
                self.out.extend_from_slice(if brotli_compressed {
                    b"\tbrob"
                } else {
                    b"\tplain"
                });
                self.out
                    .extend_from_slice(if last_box { b"\ttoend" } else { b"\tbounded" });
            }
            ParseEvent::AuxBoxEnd(ty) => {
                self.word(b"end\t");
                self.hex(u32::from_be_bytes(ty.0));
            }
            _ => unreachable!("payloads are held"),
        }
        self.out.push(b'\n');
    }
}

/// The listing of a file: how many bytes its lines have. As after the last turn of the proved one, the newest event is still
/// held where it is a payload, and there is no stop line.
pub fn listing(file: &[u8], packet: usize, lines: &mut Lines) -> usize {
    lines.out.clear();
    (lines.written, lines.held) = (0, Held::Nothing);
    feed(file, packet, |event, base, input| {
        let place = |part: &[u8]| base + (part.as_ptr() as usize - input.as_ptr() as usize);
        match event {
            ParseEvent::Codestream(part) => lines.code(place(part), part.len()),
            ParseEvent::AuxBoxData(ty, part) => {
                lines.data(u32::from_be_bytes(ty.0), place(part), part.len())
            }
            event => lines.other(event),
        }
    });
    lines.written + lines.out.len()
}
