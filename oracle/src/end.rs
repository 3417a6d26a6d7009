//! Judges the end of a file by the papers alone: the event that the end call of document 02 (P4) still
//! owes, or that the file is cut short. The Rust has no such call, so none of this comes from it.

use std::fmt::{self, Display, Formatter};

/// What the end call comes to, made behind a whole file.
#[derive(Clone, Copy, Debug, PartialEq)]
pub enum End {
    Done(Option<Owed>),
    CutShort,
    Refused(u8), // by a rule of document 01, with its number: the refusal stays
}

/// The one event that is still owed.
#[derive(Clone, Copy, Debug, PartialEq)]
pub enum Owed {
    AuxEnd(u32),      // of this type
    EmptyCode(usize), // the place where it stands
    NoMoreAux,
}

/// As the list `boxes` has it.
impl Display for End {
    fn fmt(&self, f: &mut Formatter) -> fmt::Result {
        match self {
            End::Done(None) => write!(f, "-"),
            End::Done(Some(Owed::AuxEnd(ty))) => write!(f, "E{ty:08x}"),
            End::Done(Some(Owed::EmptyCode(at))) => write!(f, "C@{at}+0"),
            End::Done(Some(Owed::NoMoreAux)) => write!(f, "N"),
            End::CutShort => write!(f, "!"),
            End::Refused(_) => write!(f, "R"),
        }
    }
}

const CODESTREAM: &[u8] = b"\xff\x0a";
const CONTAINER: &[u8] = b"\0\0\0\x0cJXL \x0d\x0a\x87\x0a";

/// The end of a file, by all of its bytes.
pub fn of_file(file: &[u8]) -> End {
    if file.starts_with(CONTAINER) {
        of_boxes(file).unwrap_or_else(|end| end)
    } else if CONTAINER.starts_with(file) || CODESTREAM.starts_with(file) && file != CODESTREAM {
        End::CutShort // the kind is unknown
    } else {
        End::Done(None) // bare or invalid: all bytes were shown, and there is one
    }
}

/// The codestream boxes that came so far.
#[derive(PartialEq)]
enum Code {
    None,
    Whole,     // a `jxlc`
    Open(u32), // a row of `jxlp` without its last one; the index that comes next
    Closed,    // a row of `jxlp` with its last one
}

/// Walks the boxes. An Err is an end at which the walk stops early.
fn of_boxes(file: &[u8]) -> Result<End, End> {
    let mut at = CONTAINER.len();
    let mut code = Code::None;
    let mut owed = None; // by the box that was walked last, where the file ends right behind it
    while at < file.len() {
        let Header { ty, len, payload } = header(&file[at..])?;
        at += len;
        let mut left = payload; // None: to the end of the file
        let mut side = Some(ty); // the type that AUX_END tells; None: part of the codestream
        match &ty {
            b"jxlc" => {
                refuse_if(code != Code::None, 1)?;
                code = Code::Whole;
                side = None;
            }
            b"jxlp" => {
                refuse_if(payload.is_some_and(|n| n < 4), 1)?;
                let next = match code {
                    Code::None => 0,
                    Code::Open(next) => next,
                    Code::Whole | Code::Closed => return Err(End::Refused(1)),
                };
                let word = u32::from_be_bytes(four(&file[at..])?);
                refuse_if(word & 0x7fff_ffff != next, 1)?;
                code = if word >> 31 == 1 {
                    Code::Closed
                } else {
                    Code::Open(next + 1)
                };
                at += 4;
                left = payload.map(|n| n - 4);
                side = None;
            }
            b"brob" => {
                refuse_if(payload.is_some_and(|n| n < 4), 1)?;
                let inner = four(&file[at..])?;
                let reserved = inner.starts_with(b"jxl") || &inner == b"brob" || &inner == b"jbrd";
                refuse_if(reserved, 2)?;
                at += 4;
                left = payload.map(|n| n - 4);
                side = Some(inner);
            }
            _ => {}
        }
        let there = file.len() - at;
        owed = match (side, left) {
            (Some(ty), _) => Some(Owed::AuxEnd(u32::from_be_bytes(ty))),
            (None, Some(0)) => Some(Owed::EmptyCode(at)),
            (None, None) if there == 0 => Some(Owed::NoMoreAux),
            (None, _) => None, // its bytes were shown
        };
        at += match left {
            Some(n) if n > there as u64 => return Err(End::CutShort),
            Some(n) => n as usize,
            None => there,
        };
    }
    match code {
        Code::Open(_) => Err(End::CutShort),
        _ => Ok(End::Done(owed)),
    }
}

struct Header {
    ty: [u8; 4],
    len: usize,
    payload: Option<u64>, // None: to the end of the file
}

/// The box header at the front of these bytes.
fn header(bytes: &[u8]) -> Result<Header, End> {
    let size = four(bytes)?;
    let ty = four(&bytes[4..])?;
    let (len, payload) = match u32::from_be_bytes(size) {
        0 => (8, None),
        1 => {
            let high = u32::from_be_bytes(four(&bytes[8..])?);
            let low = u32::from_be_bytes(four(&bytes[12..])?);
            let size = u64::from(high) << 32 | u64::from(low);
            refuse_if(size < 16, 1)?;
            (16, Some(size - 16))
        }
        2..=7 => return Err(End::Refused(1)),
        size => (8, Some(u64::from(size) - 8)),
    };
    Ok(Header { ty, len, payload })
}

/// The first four of these bytes; with fewer, the file is cut short.
fn four(bytes: &[u8]) -> Result<[u8; 4], End> {
    bytes.first_chunk().copied().ok_or(End::CutShort)
}

fn refuse_if(broken: bool, number: u8) -> Result<(), End> {
    if broken {
        Err(End::Refused(number))
    } else {
        Ok(())
    }
}
