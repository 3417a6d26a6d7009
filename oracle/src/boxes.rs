//! The list of `boxes`: files fed to the Rust's parser in packets, and the events it gives.

use crate::box_files;
use crate::end::{self, End, Owed};
use crate::fields::hex;
use crate::rng::Rng;
use jxl_bitstream::{BitstreamKind, ContainerParser, Error, ParseEvent};
use std::fmt::Write;

/// What a feed tells, with payloads named by their place in the file.
#[derive(Clone, Copy)]
pub enum Event {
    Kind(BitstreamKind),
    NoMoreAux,
    Code { at: usize, len: usize },
    Start { ty: u32, brob: bool, to_end: bool },
    Data { ty: u32, at: usize, len: usize },
    End { ty: u32 },
    Refused(u8), // the number of the refusal in document 01
    Fed(usize),  // the end of a feed: all bytes consumed so far
}

/// Feeds a file in packets of the given lengths; None if a feed is outside the domain.
pub fn feed(file: &[u8], packets: &[usize]) -> Option<Vec<Event>> {
    let mut parser = ContainerParser::new();
    let mut events = vec![];
    let (mut consumed, mut end) = (0, 0);
    for packet in packets {
        end += packet;
        let refused = feed_one(&mut parser, &file[consumed..end], consumed, &mut events);
        consumed += parser.previous_consumed_bytes();
        if refused == Some(1) && half_extended(&file[consumed..end]) {
            return None;
        }
        check_kind(&parser, &events);
        events.push(Event::Fed(consumed));
        if refused.is_some() {
            break; // nothing is fed after an error
        }
    }
    Some(events)
}

/// One feed; `start` is the place of the input in the file. Tells the number of its refusal.
fn feed_one(
    parser: &mut ContainerParser,
    input: &[u8],
    start: usize,
    events: &mut Vec<Event>,
) -> Option<u8> {
    let place = |part: &[u8]| start + (part.as_ptr() as usize - input.as_ptr() as usize);
    for event in parser.feed_bytes(input) {
        let event = match event {
            Ok(ParseEvent::BitstreamKind(kind)) => Event::Kind(kind),
            Ok(ParseEvent::NoMoreAuxBox) => Event::NoMoreAux,
            Ok(ParseEvent::Codestream(part)) => Event::Code {
                at: place(part),
                len: part.len(),
            },
            Ok(ParseEvent::AuxBoxStart {
                ty,
                brotli_compressed,
                last_box,
            }) => Event::Start {
                ty: number(ty.0),
                brob: brotli_compressed,
                to_end: last_box,
            },
            Ok(ParseEvent::AuxBoxData(ty, part)) => Event::Data {
                ty: number(ty.0),
                at: place(part),
                len: part.len(),
            },
            Ok(ParseEvent::AuxBoxEnd(ty)) => Event::End { ty: number(ty.0) },
            Err(Error::InvalidBox) => Event::Refused(1),
            Err(Error::ValidationFailed(_)) => Event::Refused(2),
            Err(error) => panic!("no box gives this error: {error:?}"),
        };
        events.push(event);
    }
    match events.last() {
        Some(Event::Refused(number)) => Some(*number),
        _ => None,
    }
}

/// A box type as one number, its bytes big-endian.
fn number(ty: [u8; 4]) -> u32 {
    u32::from_be_bytes(ty)
}

/// Whether an error left 8 to 15 bytes of an extended header, which only the Rust refuses.
fn half_extended(unread: &[u8]) -> bool {
    (8..=15).contains(&unread.len()) && unread.starts_with(&[0, 0, 0, 1])
}

/// The kind told on request is unknown before the kind event, then that event's.
fn check_kind(parser: &ContainerParser, events: &[Event]) {
    let told = events.iter().find_map(|event| match event {
        Event::Kind(kind) => Some(*kind),
        _ => None,
    });
    assert_eq!(parser.kind(), told.unwrap_or(BitstreamKind::Unknown));
}

/// The end of a file, by the judge, held to the Rust's events of the file fed whole: to its refusal
/// and the bytes that it left unread, and to what it shows when one byte more comes.
pub fn end_of(file: &[u8], events: &[Event]) -> End {
    let end = end::of_file(file);
    let refused = events.iter().find_map(|event| match event {
        Event::Refused(number) => Some(End::Refused(*number)),
        _ => None,
    });
    assert!(refused.is_none_or(|refused| refused == end));
    match end {
        End::Refused(_) => assert!(refused.is_some()),
        End::CutShort => {}
        End::Done(owed) => {
            assert!(matches!(events.last(), Some(Event::Fed(n)) if *n == file.len()));
            check_owed(file, owed, events.len());
        }
    }
    end
}

/// One byte more brings the event that is owed, but for the end of a box that goes on then. With
/// nothing owed it is a byte of a codestream, or of a header, which shows nothing.
fn check_owed(file: &[u8], owed: Option<Owed>, known: usize) {
    let more = [file, &[0]].concat();
    let events = feed(&more, &[file.len(), 1]).expect("no header is begun");
    match (owed, events[known]) {
        (Some(Owed::AuxEnd(ty)), Event::End { ty: told }) => assert_eq!(ty, told),
        (Some(Owed::AuxEnd(ty)), Event::Data { ty: told, .. }) => assert_eq!(ty, told),
        (Some(Owed::EmptyCode(place)), Event::Code { at, len: 0 }) => assert_eq!(place, at),
        (Some(Owed::NoMoreAux), Event::NoMoreAux) => {}
        (None, Event::Code { len: 1, .. } | Event::Fed(_)) => {}
        (owed, _) => panic!("a byte more does not bring the event owed: {owed:?}"),
    }
}

/// An event as the list shows it.
fn token(event: &Event) -> String {
    match *event {
        Event::Kind(BitstreamKind::BareCodestream) => "Kb".to_string(),
        Event::Kind(BitstreamKind::Container) => "Kc".to_string(),
        Event::Kind(BitstreamKind::Invalid) => "Ki".to_string(),
        Event::Kind(BitstreamKind::Unknown) => panic!("no event tells an unknown kind"),
        Event::NoMoreAux => "N".to_string(),
        Event::Code { at, len } => format!("C@{at}+{len}"),
        Event::Start { ty, brob, to_end } => {
            let packing = if brob { 'c' } else { 'p' };
            let extent = if to_end { 'e' } else { 'b' };
            format!("S{ty:08x},{packing},{extent}")
        }
        Event::Data { ty, at, len } => format!("D{ty:08x}@{at}+{len}"),
        Event::End { ty } => format!("E{ty:08x}"),
        Event::Refused(number) => format!("R{number}"),
        Event::Fed(consumed) => format!("|{consumed}"),
    }
}

/// The whole list; the counts go to standard error.
pub fn list() -> String {
    let mut rng = Rng::new(3);
    let mut out = String::new();
    let (mut files, mut feeds, mut left_out) = (0, 0, 0);
    for (nth, file) in box_files::files(&mut rng).iter().enumerate() {
        let lines = lines_of(file, nth, &mut rng);
        if lines.is_empty() {
            left_out += 1; // also whole it ends inside an extended header
            continue;
        }
        let space = if file.is_empty() { "" } else { " " };
        writeln!(out, "f{space}{}", hex(file)).unwrap();
        let events = feed(file, &[file.len()]).expect("the first line is of the file fed whole");
        writeln!(out, "e {}", end_of(file, &events)).unwrap();
        lines
            .iter()
            .for_each(|line| writeln!(out, "{line}").unwrap());
        files += 1;
        feeds += lines.len();
    }
    let lines = 2 * files + feeds;
    eprintln!("{files} files, {feeds} feedings, {lines} lines");
    eprintln!("{left_out} files left out: they end 8 to 15 bytes into an extended header");
    out
}

/// The lines of one file: whole, in two, in random packets, and for some files byte by byte.
fn lines_of(file: &[u8], nth: usize, rng: &mut Rng) -> Vec<String> {
    let mut lines = vec![];
    add_line(file, &[file.len()], &mut lines);
    if file.len() < 2 || lines.is_empty() {
        return lines;
    }
    retry(&mut lines, file, || in_two(file.len(), rng));
    retry(&mut lines, file, || at_random(file.len(), rng));
    if nth.is_multiple_of(3) {
        retry(&mut lines, file, || at_random(file.len(), rng));
    }
    if nth.is_multiple_of(8) {
        add_line(file, &vec![1; file.len()], &mut lines);
    }
    lines
}

/// Tries other cuts while they fall outside the domain or are there already.
fn retry(lines: &mut Vec<String>, file: &[u8], mut cuts: impl FnMut() -> Vec<usize>) {
    for _ in 0..8 {
        if add_line(file, &cuts(), lines) {
            return;
        }
    }
}

/// Adds the line of one way to cut; false if it is outside the domain or there already.
fn add_line(file: &[u8], packets: &[usize], lines: &mut Vec<String>) -> bool {
    let Some(events) = feed(file, packets) else {
        return false;
    };
    let lengths: Vec<String> = packets.iter().map(usize::to_string).collect();
    let cuts = if file.is_empty() {
        "-".to_string()
    } else {
        lengths.join(",")
    };
    let tokens: Vec<String> = events.iter().map(token).collect();
    let line = format!("{cuts} = {}", tokens.join(" "));
    let new = !lines.contains(&line);
    if new {
        lines.push(line);
    }
    new
}

/// Two packets, cut at a random place.
fn in_two(len: usize, rng: &mut Rng) -> Vec<usize> {
    let first = 1 + rng.below(len - 1);
    vec![first, len - first]
}

/// Packets of random lengths, mostly short, with a random longest one.
fn at_random(len: usize, rng: &mut Rng) -> Vec<usize> {
    let longest = rng.pick(&[4, 12, 20, 40]);
    let mut packets = vec![];
    let mut left = len;
    while left > 0 {
        let packet = (1 + rng.below(longest)).min(left);
        packets.push(packet);
        left -= packet;
    }
    packets
}
