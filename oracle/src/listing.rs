//! The command `listing`: the listing of document 01, made from the Rust's events of whole files, and
//! closed as document 02 (P4) has it, by the judge of `end.rs`.

use crate::boxes::{Event, end_of, feed};
use crate::end::{End, Owed};
use jxl_bitstream::BitstreamKind;

/// The listings of the files, one behind the other.
pub fn of_files(names: &[&str]) -> Result<String, String> {
    let mut out = String::new();
    for name in names {
        let file = std::fs::read(name).map_err(|e| format!("{name}: {e}"))?;
        let events = feed(&file, &[file.len()]).ok_or(format!(
            "{name}: ends 8 to 15 bytes into an extended header, not in the domain"
        ))?;
        of_events(&events, end_of(&file, &events))
            .iter()
            .for_each(|record| out += &format!("{record}\n"));
    }
    Ok(out)
}

/// The records of one file fed in one piece: those of the events, then those of its end.
fn of_events(events: &[Event], end: End) -> Vec<String> {
    let mut records = vec![];
    for event in joined(events) {
        match event {
            Event::Kind(kind) => records.push(format!("kind\t{}", kind_word(kind))),
            Event::NoMoreAux => records.push("nomore".to_string()),
            Event::Code { at, len } => records.push(format!("code\t{at}\t{len}")),
            Event::Start { ty, brob, to_end } => {
                let packing = if brob { "brob" } else { "plain" };
                let extent = if to_end { "toend" } else { "bounded" };
                records.push(format!("start\t{ty:08x}\t{packing}\t{extent}"));
            }
            Event::Data { ty, at, len } => records.push(format!("data\t{ty:08x}\t{at}\t{len}")),
            Event::End { ty } => records.push(format!("end\t{ty:08x}")),
            Event::Refused(_) => {} // the end tells it
            Event::Fed(consumed) => records.extend(of_end(end, consumed)),
        }
    }
    records
}

/// The record of the event still owed, if there is one, and the stop.
fn of_end(end: End, consumed: usize) -> Vec<String> {
    let owed = match end {
        End::Done(Some(Owed::AuxEnd(ty))) => Some(format!("end\t{ty:08x}")),
        End::Done(Some(Owed::EmptyCode(at))) => Some(format!("code\t{at}\t0")),
        End::Done(Some(Owed::NoMoreAux)) => Some("nomore".to_string()),
        End::Done(None) | End::CutShort | End::Refused(_) => None,
    };
    let stop = match end {
        End::Done(_) => "done".to_string(),
        End::CutShort => "cutshort".to_string(),
        End::Refused(number) => format!("refused{number}"),
    };
    let stop = format!("stop\t{stop}\t{consumed}");
    owed.into_iter().chain([stop]).collect()
}

/// The events with payload parts that lie end to end made one.
fn joined(events: &[Event]) -> Vec<Event> {
    let mut all: Vec<Event> = vec![];
    for &event in events {
        match (all.last_mut(), event) {
            (
                Some(Event::Code { at, len }),
                Event::Code {
                    at: next,
                    len: more,
                },
            ) if *at + *len == next => {
                *len += more;
            }
            (
                Some(Event::Data { at, len, .. }),
                Event::Data {
                    at: next,
                    len: more,
                    ..
                },
            ) if *at + *len == next => {
                *len += more;
            }
            _ => all.push(event),
        }
    }
    all
}

/// The listing's word for a kind.
fn kind_word(kind: BitstreamKind) -> &'static str {
    match kind {
        BitstreamKind::Unknown => panic!("no event tells an unknown kind"),
        BitstreamKind::BareCodestream => "bare",
        BitstreamKind::Container => "container",
        BitstreamKind::Invalid => "invalid",
    }
}
