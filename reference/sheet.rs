//! The reader of sheets, written from document 01, "The sheet and its
//! printout": 40 where the layout is broken, then 5 over a limit.
use crate::rust_run::decoded;
use qspquest_modeling::{Budgets, Event, Protocol};

/// The most words, events and samples of a sheet.
pub const WORDS: usize = 8192;
pub const EVENTS: usize = 64;
pub const SAMPLES: usize = 256;
/// Word 0 and five pairs.
pub const HEAD: usize = 11;
/// Word 0.
pub const FIRST: u64 = 5;
/// What a propagation word of 0 stands for.
const PROPAGATIONS: u64 = 1000;

/// The bodies of a sheet, as words.
#[derive(Clone, Debug, Default, PartialEq)]
pub struct Bodies {
    pub model: Vec<u64>,
    pub window: Vec<u64>,
    pub amounts: Vec<u64>,
    pub samples: Vec<u64>,
    pub events: Vec<u64>,
}

/// What the words stand for.
#[derive(Clone, Debug)]
pub struct Sheet {
    pub clearance: f64,
    pub absorption: Option<f64>,
    pub volumes: Vec<f64>,
    pub exchange: Vec<f64>,
    pub budgets: Budgets,
    pub absolute: f64,
    pub relative: f64,
    pub amounts: Vec<f64>,
    pub protocol: Protocol,
}

/// The words of a file: whole ones, and not too many.
pub fn words(bytes: &[u8]) -> Option<Vec<u64>> {
    if bytes.len() % 8 != 0 || bytes.len() / 8 > WORDS {
        return None;
    }
    let word = |eight: &[u8]| u64::from_le_bytes(eight.try_into().expect("eight bytes"));
    Some(bytes.chunks_exact(8).map(word).collect())
}

/// The bodies that the pairs name, each where the one before ends, to the end
/// of the file.
pub fn bodies(words: &[u64]) -> Option<Bodies> {
    if words.len() < HEAD || words[0] != FIRST {
        return None;
    }
    let (pairs, mut rest) = words[1..].split_at(HEAD - 1);
    let mut pairs = pairs.chunks_exact(2);
    let mut at = HEAD as u64;
    let mut body = || {
        let pair = pairs.next()?;
        if pair[0] != at || pair[1] > rest.len() as u64 {
            return None;
        }
        let (own, behind) = rest.split_at(pair[1] as usize);
        at += pair[1];
        rest = behind;
        Some(own.to_vec())
    };
    let bodies = Bodies {
        model: body()?,
        window: body()?,
        amounts: body()?,
        samples: body()?,
        events: body()?,
    };
    rest.is_empty().then_some(bodies)
}

fn doubles(words: &[u64]) -> Vec<f64> {
    words.iter().map(|word| f64::from_bits(*word)).collect()
}

/// What the bodies stand for; none where one does not fit its contents, or a
/// word is outside its listed values.
pub fn meaning(bodies: &Bodies) -> Option<Sheet> {
    let [clearance, depot, absorption, count, parts @ ..] = &bodies.model[..] else {
        return None;
    };
    if *depot > 1 || !(1..=3).contains(count) {
        return None;
    }
    let count = *count as usize;
    if parts.len() != count + (count - 1) {
        return None;
    }
    let [start, end, rtol, atol, propagations, events, outputs, absolute, relative] =
        bodies.window[..]
    else {
        return None;
    };
    Some(Sheet {
        clearance: f64::from_bits(*clearance),
        absorption: (*depot == 1).then_some(f64::from_bits(*absorption)),
        volumes: doubles(&parts[..count]),
        exchange: doubles(&parts[count..]),
        budgets: Budgets {
            solver_callbacks: if propagations == 0 {
                PROPAGATIONS
            } else {
                propagations
            },
            events: events as usize,
            output_values: outputs as usize,
        },
        absolute: f64::from_bits(absolute),
        relative: f64::from_bits(relative),
        amounts: doubles(&bodies.amounts),
        protocol: Protocol {
            start: f64::from_bits(start),
            end: f64::from_bits(end),
            rtol: f64::from_bits(rtol),
            atol: f64::from_bits(atol),
            samples: doubles(&bodies.samples),
            events: decoded(&bodies.events)?,
        },
    })
}

/// Whether the sheet is over a limit.
pub fn over_limit(sheet: &Sheet) -> bool {
    sheet.protocol.events.len() > EVENTS || sheet.protocol.samples.len() > SAMPLES
}

/// The sheet of a file, or 40 or 5.
pub fn read(bytes: &[u8]) -> Result<Sheet, u64> {
    let sheet = words(bytes)
        .and_then(|words| bodies(&words))
        .and_then(|bodies| meaning(&bodies))
        .ok_or(40_u64)?;
    if over_limit(&sheet) {
        return Err(5);
    }
    Ok(sheet)
}

/// +0 plus all dose amounts in list order.
pub fn ordered(events: &[Event]) -> f64 {
    events
        .iter()
        .filter_map(Event::amount)
        .fold(0.0, |sum, amount| sum + amount)
}
