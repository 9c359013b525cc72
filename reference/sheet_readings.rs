//! Entries that stand in for the one under test: a right one over the Rust,
//! wrong readings of document 01, and wrong ways with the lent cells. The
//! comparison must take the first and catch each of the others.
use crate::rust_run::{BOLUS, EVENT, INFUSION, RESET};
use crate::sheet::*;
use crate::sheet_draw::WINDOW;
use crate::sheet_entry::{RunSheet, MOST};
use crate::sheet_run::{kernel, printed, printout, reached, refused, run, Printout, Refusal};
use qspquest_modeling::Event;
use std::cell::Cell;

pub struct Reading {
    pub name: &'static str,
    pub printout: fn(&[u8]) -> Printout,
}

const fn reading(name: &'static str, printout: fn(&[u8]) -> Printout) -> Reading {
    Reading { name, printout }
}

// ---- the right way from each stage on

fn ahead(number: u64) -> Printout {
    refused(Refusal::ahead(number))
}

fn of_sheet(sheet: &Sheet) -> Printout {
    if over_limit(sheet) {
        return ahead(5);
    }
    printed(sheet)
}

fn of_bodies(read: Option<Bodies>) -> Printout {
    match read.and_then(|bodies| meaning(&bodies)) {
        Some(sheet) => of_sheet(&sheet),
        None => ahead(40),
    }
}

fn of_words(words: &[u64]) -> Printout {
    of_bodies(bodies(words))
}

/// The words of a file as if it had no limit.
fn whole_words(bytes: &[u8]) -> Vec<u64> {
    let word = |eight: &[u8]| u64::from_le_bytes(eight.try_into().expect("eight bytes"));
    bytes.chunks_exact(8).map(word).collect()
}

fn with_words(bytes: &[u8], change: impl FnOnce(&mut Vec<u64>)) -> Printout {
    let Some(mut read) = words(bytes).filter(|words| words.len() >= HEAD) else {
        return ahead(40);
    };
    change(&mut read);
    of_words(&read)
}

fn with_bodies(bytes: &[u8], change: impl FnOnce(&mut Bodies)) -> Printout {
    let read = words(bytes).and_then(|words| bodies(&words));
    of_bodies(read.map(|mut bodies| {
        change(&mut bodies);
        bodies
    }))
}

fn with_events(bytes: &[u8], change: impl Fn(&mut [u64])) -> Printout {
    with_bodies(bytes, |bodies| {
        bodies.events.chunks_exact_mut(EVENT).for_each(&change)
    })
}

/// With a sheet that was read, or the right refusal.
fn with_sheet(bytes: &[u8], then: impl FnOnce(Sheet) -> Printout) -> Printout {
    match read(bytes) {
        Ok(sheet) => then(sheet),
        Err(number) => ahead(number),
    }
}

/// With the text of a printout changed.
fn with_text(bytes: &[u8], change: impl FnOnce(&str) -> String) -> Printout {
    let right = printout(bytes);
    Printout {
        text: change(&right.text),
        ..right
    }
}

/// With another sum in the last line.
fn with_ordered(bytes: &[u8], sum: impl FnOnce(&[Event]) -> f64) -> Printout {
    with_sheet(bytes, |sheet| {
        match kernel(&sheet).and_then(|kernel| run(&kernel, &sheet)) {
            Ok(rows) => reached(&rows, sum(&sheet.protocol.events)),
            Err(refusal) => refused(refusal),
        }
    })
}

/// Bodies by a rule for a first word, the end of the body before, and a count.
fn placed(bytes: &[u8], taken: fn(u64, u64, u64) -> bool) -> Printout {
    let Some(words) = words(bytes).filter(|words| words.len() >= HEAD && words[0] == FIRST) else {
        return ahead(40);
    };
    let mut at = HEAD as u64;
    let mut parts = vec![];
    for pair in words[1..HEAD].chunks_exact(2) {
        let end = pair[0].checked_add(pair[1]);
        let Some(end) = end.filter(|end| *end <= words.len() as u64 && taken(pair[0], at, pair[1]))
        else {
            return ahead(40);
        };
        parts.push(words[pair[0] as usize..end as usize].to_vec());
        at = end;
    }
    if at != words.len() as u64 {
        return ahead(40);
    }
    of_bodies(joined(parts))
}

fn joined(parts: Vec<Vec<u64>>) -> Option<Bodies> {
    let [model, window, amounts, samples, events] = <[Vec<u64>; 5]>::try_from(parts).ok()?;
    Some(Bodies {
        model,
        window,
        amounts,
        samples,
        events,
    })
}

/// The refusal of the run proper where there is one, else that of the amounts.
fn run_ahead_of_amounts(sheet: Sheet, numbers: &[u64]) -> Printout {
    let right = printed(&sheet);
    if right.number != 3 {
        return right;
    }
    let mut other = sheet;
    let Ok(kernel) = kernel(&other) else {
        return right;
    };
    other.amounts = vec![1.0; kernel.state_count()];
    let run = printed(&other);
    if numbers.contains(&run.number) {
        run
    } else {
        right
    }
}

fn low_half(word: &mut u64) {
    *word &= 0xffff_ffff;
}

// ---- wrong readings

pub const READINGS: &[Reading] = &[
    // Words and their limit.
    reading("no limit of words", |bytes| {
        if bytes.len() % 8 != 0 {
            return ahead(40);
        }
        of_words(&whole_words(bytes))
    }),
    reading("8,191 words are the most", |bytes| {
        if bytes.len() / 8 == WORDS {
            return ahead(40);
        }
        printout(bytes)
    }),
    reading("8,193 words are the most", |bytes| {
        if bytes.len() == 8 * (WORDS + 1) {
            return of_words(&whole_words(bytes));
        }
        printout(bytes)
    }),
    reading("the first 8,192 words are read", |bytes| {
        printout(&bytes[..bytes.len().min(8 * WORDS)])
    }),
    reading("bytes behind the last word are passed over", |bytes| {
        printout(&bytes[..bytes.len() / 8 * 8])
    }),
    reading("the last word is filled up with zeros", |bytes| {
        let mut more = bytes.to_vec();
        more.resize(bytes.len().div_ceil(8) * 8, 0);
        printout(&more)
    }),
    reading("high bytes first", |bytes| {
        let turned: Vec<u8> = bytes
            .chunks(8)
            .flat_map(|eight| eight.iter().rev().copied())
            .collect();
        printout(&turned)
    }),
    reading("over the limit is 5", |bytes| {
        if bytes.len() > 8 * WORDS {
            return ahead(5);
        }
        printout(bytes)
    }),
    // The head.
    reading("word 0 is not looked at", |bytes| {
        with_words(bytes, |words| words[0] = FIRST)
    }),
    reading("word 0 by its lowest byte", |bytes| {
        with_words(bytes, |words| words[0] &= 0xff)
    }),
    reading("words behind the last body are passed over", |bytes| {
        with_words(bytes, |words| {
            let end = words[9].saturating_add(words[10]);
            words.truncate(end.min(words.len() as u64) as usize);
        })
    }),
    reading("a head alone is an empty sheet", |bytes| {
        if bytes.len() == 8 * HEAD {
            return ahead(1);
        }
        printout(bytes)
    }),
    reading("first words are not looked at", |bytes| {
        with_words(bytes, |words| {
            let mut at = HEAD as u64;
            for k in 0..5 {
                words[1 + 2 * k] = at;
                at = at.wrapping_add(words[2 + 2 * k]);
            }
        })
    }),
    reading("the model's first word is not looked at", |bytes| {
        with_words(bytes, |words| words[1] = HEAD as u64)
    }),
    reading("the last count is not looked at", |bytes| {
        with_words(bytes, |words| {
            words[10] = (words.len() as u64).wrapping_sub(words[9])
        })
    }),
    reading("gaps between bodies are taken", |bytes| {
        placed(bytes, |first, at, _| first >= at)
    }),
    reading("bodies over each other are taken", |bytes| {
        placed(bytes, |first, at, _| first <= at)
    }),
    reading("bodies at any place", |bytes| placed(bytes, |_, _, _| true)),
    reading("an empty body may name any place", |bytes| {
        with_words(bytes, |words| {
            let mut at = HEAD as u64;
            for k in 0..5 {
                if words[2 + 2 * k] == 0 {
                    words[1 + 2 * k] = at;
                }
                at = at.wrapping_add(words[2 + 2 * k]);
            }
        })
    }),
    reading("an empty body is 40", |bytes| {
        let right = printout(bytes);
        let read = words(bytes).and_then(|words| bodies(&words));
        match read {
            Some(bodies) if bodies.samples.is_empty() => ahead(40),
            _ => right,
        }
    }),
    reading("first words of 32 bits", |bytes| {
        with_words(bytes, |words| {
            words[1..HEAD].iter_mut().step_by(2).for_each(low_half)
        })
    }),
    reading("counts of 32 bits", |bytes| {
        with_words(bytes, |words| {
            words[2..HEAD].iter_mut().step_by(2).for_each(low_half)
        })
    }),
    reading("places in bytes, modulo 2^64", |bytes| {
        with_words(bytes, |words| {
            words[1..HEAD]
                .iter_mut()
                .for_each(|word| *word &= (1 << 61) - 1)
        })
    }),
    reading("sums modulo 2^64", |bytes| {
        let Some(words) = words(bytes).filter(|words| words.len() >= HEAD && words[0] == FIRST)
        else {
            return ahead(40);
        };
        let mut at = HEAD as u64;
        let mut parts = vec![];
        for pair in words[1..HEAD].chunks_exact(2) {
            if pair[0] != at {
                return ahead(40);
            }
            at = pair[0].wrapping_add(pair[1]);
            // What lies in the file of such a body.
            let (from, to) = (pair[0].min(words.len() as u64), at.min(words.len() as u64));
            parts.push(words[from as usize..to.max(from) as usize].to_vec());
        }
        if at != words.len() as u64 {
            return ahead(40);
        }
        of_bodies(joined(parts))
    }),
    // The model.
    reading("depot 2 is a depot", |bytes| {
        with_bodies(bytes, |bodies| {
            if let Some(depot) = bodies.model.get_mut(1) {
                *depot = (*depot).min(1);
            }
        })
    }),
    reading("depot by its lowest bit", |bytes| {
        with_bodies(bytes, |bodies| {
            if let Some(depot) = bodies.model.get_mut(1) {
                *depot &= 1;
            }
        })
    }),
    reading("depot turned round", |bytes| {
        with_bodies(bytes, |bodies| {
            if let Some(depot) = bodies.model.get_mut(1).filter(|depot| **depot <= 1) {
                *depot = 1 - *depot;
            }
        })
    }),
    reading("a count of volumes that new refuses is 1", |bytes| {
        let read = words(bytes).and_then(|words| bodies(&words));
        match read.as_ref().map(|bodies| &bodies.model[..]) {
            Some([_, 0..=1, _, count, rest @ ..])
                if !(1..=3).contains(count)
                    && (rest.len() as u64).wrapping_add(1) == count.wrapping_mul(2)
                    || matches!(count, 0) =>
            {
                ahead(1)
            }
            _ => printout(bytes),
        }
    }),
    reading("a volume count by its low half", |bytes| {
        with_bodies(bytes, |bodies| {
            if let Some(count) = bodies.model.get_mut(3) {
                low_half(count);
            }
        })
    }),
    reading("a volume count whose double wraps", |bytes| {
        with_bodies(bytes, |bodies| {
            if let Some(count) = bodies.model.get_mut(3) {
                *count &= (1 << 63) - 1;
            }
        })
    }),
    reading("words behind the exchanges are passed over", |bytes| {
        with_bodies(bytes, |bodies| {
            if let Some(count @ 1..=3) = bodies.model.get(3).copied() {
                bodies.model.truncate(2 * count as usize + 3);
            }
        })
    }),
    reading("missing exchanges are 0", |bytes| {
        with_bodies(bytes, |bodies| {
            if let Some(count @ 1..=3) = bodies.model.get(3).copied() {
                let length = 2 * count as usize + 3;
                if bodies.model.len() < length {
                    bodies.model.resize(length, 0);
                }
            }
        })
    }),
    reading("absorption is tested without a depot", |bytes| {
        with_sheet(bytes, |sheet| {
            let read = bodies(&whole_words(bytes)).expect("bodies");
            let k = f64::from_bits(read.model[2]);
            if sheet.absorption.is_none() && (!k.is_finite() || k < 0.0) {
                return ahead(1);
            }
            printed(&sheet)
        })
    }),
    reading("exchanges ahead of volumes", |bytes| {
        with_bodies(bytes, |bodies| {
            if bodies.model.get(3) == Some(&2) && bodies.model.len() == 7 {
                bodies.model[4..].rotate_left(2);
            }
        })
    }),
    reading("the volumes turned round", |bytes| {
        with_sheet(bytes, |mut sheet| {
            sheet.volumes.reverse();
            printed(&sheet)
        })
    }),
    reading("the exchanges turned round", |bytes| {
        with_sheet(bytes, |mut sheet| {
            sheet.exchange.reverse();
            printed(&sheet)
        })
    }),
    // The window.
    reading("a window of seven words or more", |bytes| {
        with_bodies(bytes, |bodies| {
            if bodies.window.len() >= 7 {
                bodies.window.resize(WINDOW, 1.0_f64.to_bits());
            }
        })
    }),
    reading("words behind the window's ninth are passed over", |bytes| {
        with_bodies(bytes, |bodies| bodies.window.truncate(WINDOW))
    }),
    reading("absolute and relative are tested", |bytes| {
        with_sheet(bytes, |sheet| {
            let read = bodies(&whole_words(bytes)).expect("bodies");
            let [absolute, relative] = [7, 8].map(|at| f64::from_bits(read.window[at]));
            let right = printed(&sheet);
            let fit = absolute.is_finite() && absolute > 0.0;
            if matches!(right.number, 1..=3) || fit && relative.is_finite() && relative >= 0.0 {
                return right;
            }
            ahead(19)
        })
    }),
    reading("a propagation word of 0 is 0", |bytes| {
        with_sheet(bytes, |mut sheet| {
            let read = bodies(&whole_words(bytes)).expect("bodies");
            sheet.budgets.solver_callbacks = read.window[4];
            printed(&sheet)
        })
    }),
    reading("a propagation word of 0 is 200", |bytes| {
        with_sheet(bytes, |mut sheet| {
            let read = bodies(&whole_words(bytes)).expect("bodies");
            if read.window[4] == 0 {
                sheet.budgets.solver_callbacks = 200;
            }
            printed(&sheet)
        })
    }),
    reading("the budgets turned round", |bytes| {
        with_bodies(bytes, |bodies| {
            if bodies.window.len() == WINDOW {
                bodies.window.swap(5, 6);
            }
        })
    }),
    reading("the event budget ahead of that of propagations", |bytes| {
        with_bodies(bytes, |bodies| {
            if bodies.window.len() == WINDOW {
                bodies.window.swap(4, 5);
            }
        })
    }),
    reading("propagations of 32 bits", |bytes| {
        with_sheet(bytes, |mut sheet| {
            low_half(&mut sheet.budgets.solver_callbacks);
            printed(&sheet)
        })
    }),
    reading("the ends turned round", |bytes| {
        with_bodies(bytes, |bodies| {
            if bodies.window.len() == WINDOW {
                bodies.window.swap(0, 1);
            }
        })
    }),
    // Amounts and samples.
    reading("a wrong count of amounts is 40", |bytes| {
        with_sheet(bytes, |sheet| {
            let states = sheet.volumes.len() + usize::from(sheet.absorption.is_some());
            if sheet.amounts.len() != states {
                return ahead(40);
            }
            printed(&sheet)
        })
    }),
    reading("amounts behind the states are passed over", |bytes| {
        with_sheet(bytes, |mut sheet| {
            let states = sheet.volumes.len() + usize::from(sheet.absorption.is_some());
            sheet.amounts.truncate(states);
            printed(&sheet)
        })
    }),
    reading("missing amounts are 0", |bytes| {
        with_sheet(bytes, |mut sheet| {
            let states = sheet.volumes.len() + usize::from(sheet.absorption.is_some());
            if sheet.amounts.len() < states {
                sheet.amounts.resize(states, 0.0);
            }
            printed(&sheet)
        })
    }),
    reading("amounts behind the fourth are passed over", |bytes| {
        with_sheet(bytes, |mut sheet| {
            sheet.amounts.truncate(4);
            printed(&sheet)
        })
    }),
    reading("the amounts turned round", |bytes| {
        with_sheet(bytes, |mut sheet| {
            sheet.amounts.reverse();
            printed(&sheet)
        })
    }),
    reading("257 samples are taken", |bytes| {
        with_bodies(bytes, |bodies| {
            if bodies.samples.len() == SAMPLES + 1 {
                bodies.samples.pop();
            }
        })
    }),
    reading("256 samples are 5", |bytes| {
        with_sheet(bytes, |sheet| {
            if sheet.protocol.samples.len() == SAMPLES {
                return ahead(5);
            }
            printed(&sheet)
        })
    }),
    reading("samples that are NaN are left out", |bytes| {
        with_sheet(bytes, |mut sheet| {
            sheet.protocol.samples.retain(|t| !t.is_nan());
            printed(&sheet)
        })
    }),
    reading("equal samples count once", |bytes| {
        with_sheet(bytes, |mut sheet| {
            let mut seen: Vec<u64> = vec![];
            sheet.protocol.samples.retain(|t| {
                let known = seen.contains(&t.to_bits());
                seen.push(t.to_bits());
                !known
            });
            printed(&sheet)
        })
    }),
    // Events.
    reading("65 events are taken", |bytes| {
        with_bodies(bytes, |bodies| {
            if bodies.events.len() == EVENT * (EVENTS + 1) {
                bodies.events.truncate(EVENT * EVENTS);
            }
        })
    }),
    reading("64 events are 5", |bytes| {
        with_sheet(bytes, |sheet| {
            if sheet.protocol.events.len() == EVENTS {
                return ahead(5);
            }
            printed(&sheet)
        })
    }),
    reading("192 events are the limit", |bytes| {
        let read = words(bytes)
            .and_then(|words| bodies(&words))
            .and_then(|bodies| meaning(&bodies));
        match read {
            Some(sheet)
                if sheet.protocol.events.len() <= 192
                    && sheet.protocol.samples.len() <= SAMPLES =>
            {
                printed(&sheet)
            }
            _ => printout(bytes),
        }
    }),
    reading("words behind the last event are passed over", |bytes| {
        with_bodies(bytes, |bodies| {
            let whole = bodies.events.len() / EVENT * EVENT;
            bodies.events.truncate(whole);
        })
    }),
    reading("kind 3 is a reset", |bytes| {
        with_events(bytes, |words| words[0] = words[0].min(RESET))
    }),
    reading("kinds of 32 bits", |bytes| {
        with_events(bytes, |words| low_half(&mut words[0]))
    }),
    reading("a kind that there is not is 12", |bytes| {
        let read = words(bytes).and_then(|words| bodies(&words));
        match read {
            Some(bodies)
                if bodies.events.len() % EVENT == 0
                    && bodies.events.chunks(EVENT).any(|words| words[0] > RESET) =>
            {
                ahead(12)
            }
            _ => printout(bytes),
        }
    }),
    reading("orders modulo 65,536", |bytes| {
        with_events(bytes, |words| {
            if words[0] == RESET {
                words[4] %= 65_536;
            }
        })
    }),
    reading("an order above 65,535 is 65,535", |bytes| {
        with_events(bytes, |words| {
            if words[0] == RESET {
                words[4] = words[4].min(65_535);
            }
        })
    }),
    reading("65,535 is no order", |bytes| {
        with_events(bytes, |words| {
            if words[0] == RESET && words[4] == 65_535 {
                words[0] = 3;
            }
        })
    }),
    reading("the order of every kind is tested", |bytes| {
        with_events(bytes, |words| {
            if words[4] > 65_535 && words[0] == BOLUS {
                words[0] = 3;
            }
        })
    }),
    reading("the duration of every kind is a number", |bytes| {
        with_events(bytes, |words| {
            if words[0] == BOLUS && f64::from_bits(words[4]).is_nan() {
                words[0] = 3;
            }
        })
    }),
    reading("stops 2 is 1", |bytes| {
        with_events(bytes, |words| {
            if words[0] == RESET {
                words[5] = words[5].min(1);
            }
        })
    }),
    reading("stops by its lowest byte", |bytes| {
        with_events(bytes, |words| {
            if words[0] == RESET {
                words[5] &= 0xff;
            }
        })
    }),
    reading("stops of every kind is tested", |bytes| {
        with_events(bytes, |words| {
            if words[5] > 1 {
                words[0] = 3;
            }
        })
    }),
    reading("stops turned round", |bytes| {
        with_events(bytes, |words| {
            if words[0] == RESET && words[5] <= 1 {
                words[5] = 1 - words[5];
            }
        })
    }),
    reading("stops and order turned round", |bytes| {
        with_events(bytes, |words| {
            if words[0] == RESET {
                words.swap(4, 5);
            }
        })
    }),
    reading("targets of 32 bits", |bytes| {
        with_events(bytes, |words| low_half(&mut words[2]))
    }),
    reading("a target that there is not is 40", |bytes| {
        with_sheet(bytes, |sheet| {
            let states = sheet.volumes.len() + usize::from(sheet.absorption.is_some());
            if sheet.protocol.events.iter().any(|e| e.target() >= states) {
                return ahead(40);
            }
            printed(&sheet)
        })
    }),
    reading("amount and duration turned round", |bytes| {
        with_events(bytes, |words| {
            if words[0] == INFUSION {
                words.swap(3, 4);
            }
        })
    }),
    // The order of the refusals.
    reading("5 ahead of 40", |bytes| {
        let read = words(bytes).and_then(|words| bodies(&words));
        match read {
            Some(bodies)
                if bodies.events.len() / EVENT > EVENTS || bodies.samples.len() > SAMPLES =>
            {
                ahead(5)
            }
            _ => printout(bytes),
        }
    }),
    reading("1, 2 and 3 ahead of 5", |bytes| {
        let right = printout(bytes);
        if right.number != 5 {
            return right;
        }
        let mut sheet = meaning(&bodies(&whole_words(bytes)).expect("bodies")).expect("a sheet");
        sheet.protocol.events.clear();
        sheet.protocol.samples.clear();
        let other = printed(&sheet);
        if matches!(other.number, 1..=2) || other.number == 3 && other.text.contains(" 0000") {
            other
        } else {
            right
        }
    }),
    reading("3 ahead of 1 and 2", |bytes| {
        with_sheet(bytes, |sheet| {
            let states = sheet.volumes.len() + usize::from(sheet.absorption.is_some());
            let fit = |v: &f64| v.is_finite() && *v >= 0.0;
            if sheet.amounts.len() != states || !sheet.amounts.iter().all(fit) {
                return ahead(3);
            }
            printed(&sheet)
        })
    }),
    reading("13 ahead of 3", |bytes| {
        with_sheet(bytes, |sheet| run_ahead_of_amounts(sheet, &[13]))
    }),
    reading("10, 11, 12 and 14 ahead of 3", |bytes| {
        with_sheet(bytes, |sheet| {
            run_ahead_of_amounts(sheet, &[10, 11, 12, 14])
        })
    }),
    // The printout.
    reading("hexadecimal in upper case", |bytes| {
        with_text(bytes, |text| {
            let word = |word: &str| match word.trim_end().len() {
                16 => word.to_uppercase(),
                _ => word.to_string(),
            };
            let words: Vec<String> = text.split_inclusive([' ', '\n']).map(word).collect();
            words.concat()
        })
    }),
    reading("no leading zeros", |bytes| {
        with_text(bytes, |text| text.replace(" 0000", " "))
    }),
    reading("no line feed at the end", |bytes| {
        with_text(bytes, |text| text.trim_end().to_string())
    }),
    reading("a space at the end of a line", |bytes| {
        with_text(bytes, |text| text.replace('\n', " \n"))
    }),
    reading("times of -0 as +0", |bytes| {
        with_text(bytes, |text| {
            text.replace("\n8000000000000000", "\n0000000000000000")
        })
    }),
    reading("a refusal's time is +0", |bytes| {
        let right = printout(bytes);
        if right.number == 0 {
            return right;
        }
        ahead(right.number)
    }),
    reading("32 has its interval's time", |bytes| {
        with_sheet(bytes, |sheet| {
            let right = printed(&sheet);
            if right.number != 32 {
                return right;
            }
            let times = sheet.protocol.events.iter().map(|event| event.time());
            refused(Refusal {
                number: 32,
                time: times.fold(sheet.protocol.start, f64::max),
            })
        })
    }),
    reading("rows in hexadecimal", |bytes| {
        let right = printout(bytes);
        let Some(rest) = right.text.strip_prefix("rows ") else {
            return right;
        };
        let (count, rest) = rest.split_once('\n').expect("a line");
        let count: usize = count.parse().expect("a number");
        Printout {
            number: 0,
            text: format!("rows {count:x}\n{rest}"),
        }
    }),
    reading("ordered from -0", |bytes| {
        with_ordered(bytes, |events| {
            let doses = events.iter().filter_map(Event::amount);
            doses.fold(-0.0, |sum, amount| sum + amount)
        })
    }),
    reading("ordered from the list's end", |bytes| {
        with_ordered(bytes, |events| {
            let doses = events.iter().rev().filter_map(Event::amount);
            doses.fold(0.0, |sum, amount| sum + amount)
        })
    }),
    reading("ordered of the boluses alone", |bytes| {
        with_ordered(bytes, |events| {
            let boluses = events.iter().filter(|e| matches!(e, Event::Bolus { .. }));
            boluses
                .filter_map(Event::amount)
                .fold(0.0, |sum, amount| sum + amount)
        })
    }),
    reading("ordered has the resets too", |bytes| {
        with_ordered(bytes, |events| {
            events.iter().fold(0.0, |sum, event| match event {
                Event::Reset { value, .. } => sum + value,
                other => sum + other.amount().expect("a dose"),
            })
        })
    }),
    reading("ordered in a refusal too", |bytes| {
        let right = printout(bytes);
        if right.number == 0 {
            return right;
        }
        Printout {
            text: format!("{}ordered 0000000000000000\n", right.text),
            ..right
        }
    }),
    reading("the sides turned round", |bytes| {
        with_text(bytes, |text| {
            text.replace(" pre ", " x ")
                .replace(" post ", " pre ")
                .replace(" x ", " post ")
        })
    }),
    reading("a refusal's number in hexadecimal", |bytes| {
        let right = printout(bytes);
        if right.number == 0 {
            return right;
        }
        Printout {
            text: right.text.replacen(
                &format!("refused {}", right.number),
                &format!("refused {:x}", right.number),
                1,
            ),
            ..right
        }
    }),
    reading("the amounts of a row turned round", |bytes| {
        with_text(bytes, |text| {
            let line = |line: &str| {
                let mut words: Vec<&str> = line.split(' ').collect();
                if words.len() > 3 && words[0] != "refused" {
                    words[2..].reverse();
                }
                words.join(" ")
            };
            let lines: Vec<String> = text.split('\n').map(line).collect();
            lines.join("\n")
        })
    }),
    reading("a run that is refused prints no time", |bytes| {
        let right = printout(bytes);
        if right.number == 0 {
            return right;
        }
        Printout {
            text: format!("refused {}\n", right.number),
            ..right
        }
    }),
];

// ---- entries

thread_local! {
    static PRESENT: Cell<fn(&[u8]) -> Printout> = const { Cell::new(printout) };
}

/// The lent slices of a call.
struct Lent<'a> {
    sheet: &'a mut [u8],
    out: &'a mut [u8],
    length: &'a mut usize,
}

/// # Safety
/// The pointers are those of slices of these lengths, which no other has.
unsafe fn lent<'a>(
    sheet: *const u8,
    sheet_length: usize,
    out: *mut u8,
    out_length: usize,
    length: *mut usize,
) -> Lent<'a> {
    Lent {
        sheet: std::slice::from_raw_parts_mut(sheet.cast_mut(), sheet_length),
        out: std::slice::from_raw_parts_mut(out, out_length),
        length: &mut *length,
    }
}

/// What an entry must do with a printout.
fn hand_out(printout: &Printout, lent: Lent) -> u64 {
    let text = printout.text.as_bytes();
    if lent.out.len() < text.len() {
        *lent.length = 0;
        return printout.reply(lent.out.len());
    }
    lent.out[..text.len()].copy_from_slice(text);
    *lent.length = text.len();
    printout.number
}

/// An entry over the printout of the present reading.
unsafe extern "C" fn present(
    sheet: *const u8,
    sheet_length: usize,
    out: *mut u8,
    out_length: usize,
    length: *mut usize,
) -> u64 {
    let lent = lent(sheet, sheet_length, out, out_length, length);
    let printout = PRESENT.get()(lent.sheet);
    hand_out(&printout, lent)
}

/// The entry of a reading, until the next.
pub fn entry(printout: fn(&[u8]) -> Printout) -> RunSheet {
    PRESENT.set(printout);
    present
}

/// An entry whose text is that of the present reading, and what it does with the
/// lent cells.
macro_rules! faulty {
    ($name:ident, |$printout:ident, $lent:ident| $body:expr) => {
        unsafe extern "C" fn $name(
            sheet: *const u8,
            sheet_length: usize,
            out: *mut u8,
            out_length: usize,
            length: *mut usize,
        ) -> u64 {
            let $lent = lent(sheet, sheet_length, out, out_length, length);
            let $printout = PRESENT.get()($lent.sheet);
            $body
        }
    };
}

faulty!(writes_what_fits, |printout, lent| {
    let text = printout.text.as_bytes();
    let count = text.len().min(lent.out.len());
    lent.out[..count].copy_from_slice(&text[..count]);
    hand_out(&printout, lent)
});
faulty!(length_of_the_text, |printout, lent| {
    let cell: *mut usize = lent.length;
    let reply = hand_out(&printout, lent);
    *cell = printout.text.len();
    reply
});
faulty!(length_left_alone, |printout, lent| {
    let (cell, before) = (lent.length as *mut usize, *lent.length);
    let reply = hand_out(&printout, lent);
    if reply == 4 {
        *cell = before;
    }
    reply
});
faulty!(length_with_one_more, |printout, lent| {
    let cell: *mut usize = lent.length;
    let reply = hand_out(&printout, lent);
    *cell += usize::from(reply != 4);
    reply
});
faulty!(number_of_the_run, |printout, lent| {
    hand_out(&printout, lent);
    printout.number
});
faulty!(zero_at_a_refusal, |printout, lent| {
    let reply = hand_out(&printout, lent);
    if reply == 4 {
        4
    } else {
        0
    }
});
faulty!(zero_behind_the_text, |printout, lent| {
    let count = printout.text.len();
    if count < lent.out.len() {
        lent.out[count] = 0;
    }
    hand_out(&printout, lent)
});
faulty!(rest_cleared, |printout, lent| {
    let count = printout.text.len().min(lent.out.len());
    lent.out[count..].fill(0);
    hand_out(&printout, lent)
});
faulty!(exact_room_refused, |printout, lent| {
    if lent.out.len() == printout.text.len() {
        *lent.length = 0;
        return 4;
    }
    hand_out(&printout, lent)
});
faulty!(room_for_the_longest, |printout, lent| {
    if lent.out.len() < MOST {
        *lent.length = 0;
        return 4;
    }
    hand_out(&printout, lent)
});
faulty!(refusal_without_room, |printout, lent| {
    if printout.number != 0 && lent.out.len() < printout.text.len() {
        *lent.length = 0;
        return 4;
    }
    hand_out(&printout, lent)
});
faulty!(sheet_changed, |printout, lent| {
    if let Some(byte) = lent.sheet.last_mut() {
        *byte ^= 1;
    }
    hand_out(&printout, lent)
});
faulty!(from_the_second_cell, |printout, lent| {
    let text = printout.text.as_bytes();
    if lent.out.len() <= text.len() {
        return hand_out(&printout, lent);
    }
    lent.out[1..=text.len()].copy_from_slice(text);
    *lent.length = text.len();
    printout.number
});
faulty!(a_byte_past_the_end, |printout, lent| {
    let end = lent.out.as_mut_ptr().add(lent.out.len());
    let reply = hand_out(&printout, lent);
    *end = 0;
    reply
});

/// Wrong ways with the lent cells, over the present reading.
pub const FAULTY: [(&str, RunSheet); 14] = [
    ("writes what fits", writes_what_fits),
    (
        "the length is that of the text, room or not",
        length_of_the_text,
    ),
    ("the length is left alone without room", length_left_alone),
    ("the length has one more", length_with_one_more),
    ("the run's number without room", number_of_the_run),
    ("0 at a refusal", zero_at_a_refusal),
    ("a zero behind the text", zero_behind_the_text),
    ("the rest of the output is cleared", rest_cleared),
    ("the exact room is refused", exact_room_refused),
    (
        "room for the longest printout is asked for",
        room_for_the_longest,
    ),
    ("a refusal without room is 4", refusal_without_room),
    ("the sheet is changed", sheet_changed),
    ("the text starts at the second cell", from_the_second_cell),
    ("a byte past the end is written", a_byte_past_the_end),
];
