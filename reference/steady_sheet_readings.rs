//! Wrong readings of `rig-steady`'s sheet and printout, and those of the closed
//! cycle as printouts. The comparison must catch each of them.
use crate::closed::{closed, Reading as Closed};
use crate::entries::{number, Entry};
use crate::rust_run::{BOLUS, EVENT, INFUSION, RESET};
use crate::sheet::*;
use crate::sheet_draw::WINDOW;
use crate::sheet_readings::Reading;
use crate::sheet_run::{self, kernel, refused, Printout, Refusal};
use crate::steady_entry::Steady;
use crate::steady_run::{of_sheet, printed, printout, solved};
use std::cell::Cell;

thread_local! {
    static PRESENT: Cell<Closed> = const { Cell::new(Closed::Right) };
}

fn ahead(number: u64) -> Printout {
    refused(Refusal::ahead(number))
}

/// The printout of a sheet by the present reading of the closed cycle.
fn present(bytes: &[u8]) -> Printout {
    with_sheet(bytes, |sheet| {
        if let Err(refusal) = kernel(&sheet) {
            return refused(refusal);
        }
        let words = words(bytes).expect("words");
        let bodies = bodies(&words).expect("bodies");
        let mut given = Steady::of_bodies(&bodies).expect("a kernel");
        given.cycle.propagations = sheet.budgets.solver_callbacks;
        match closed(&given.cycle, given.absolute, given.relative, PRESENT.get()) {
            Ok(state) => solved(&state.amounts, &state.residual, state.maximum),
            Err(refusal) => refused(refusal),
        }
    })
}

/// The printout of a reading of the closed cycle, until the next.
pub fn of_closed(reading: Closed) -> fn(&[u8]) -> Printout {
    PRESENT.set(reading);
    present
}

/// With a sheet that was read, or the right refusal.
fn with_sheet(bytes: &[u8], then: impl FnOnce(Sheet) -> Printout) -> Printout {
    match read(bytes) {
        Ok(sheet) => then(sheet),
        Err(number) => ahead(number),
    }
}

fn with_bodies(bytes: &[u8], change: impl FnOnce(&mut Bodies)) -> Printout {
    let read = words(bytes).and_then(|words| bodies(&words));
    let sheet = read.and_then(|mut bodies| {
        change(&mut bodies);
        meaning(&bodies)
    });
    match sheet {
        Some(sheet) if over_limit(&sheet) => ahead(5),
        Some(sheet) => printed(&sheet),
        None => ahead(40),
    }
}

fn with_events(bytes: &[u8], change: impl Fn(&mut [u64])) -> Printout {
    with_bodies(bytes, |bodies| {
        bodies.events.chunks_exact_mut(EVENT).for_each(&change)
    })
}

/// With the lines of an answer changed.
fn with_lines(bytes: &[u8], change: impl FnOnce(&mut Vec<String>)) -> Printout {
    let right = printout(bytes);
    if right.number != 0 {
        return right;
    }
    let mut lines: Vec<String> = right.text.lines().map(str::to_string).collect();
    change(&mut lines);
    let text = lines.iter().map(|line| format!("{line}\n")).collect();
    Printout { number: 0, text }
}

fn with_text(bytes: &[u8], change: impl FnOnce(&str) -> String) -> Printout {
    let right = printout(bytes);
    Printout {
        text: change(&right.text),
        ..right
    }
}

fn passes(sheet: &Sheet) -> bool {
    let (absolute, relative) = (sheet.absolute, sheet.relative);
    absolute.is_finite() && absolute > 0.0 && relative.is_finite() && relative >= 0.0
}

const fn reading(name: &'static str, printout: fn(&[u8]) -> Printout) -> Reading {
    Reading { name, printout }
}

pub const READINGS: &[Reading] = &[
    // Amounts.
    reading("3 for the amounts", |bytes| {
        with_sheet(bytes, |sheet| {
            let bound = kernel(&sheet).and_then(|kernel| {
                let bound = kernel.bind(&sheet.amounts);
                bound.map_err(|error| Refusal::ahead(number(Entry::Bind, &error)))
            });
            match bound {
                Ok(_) => printed(&sheet),
                Err(refusal) => refused(refusal),
            }
        })
    }),
    reading("40 for a wrong count of amounts", |bytes| {
        with_sheet(bytes, |sheet| {
            let states = sheet.volumes.len() + usize::from(sheet.absorption.is_some());
            if sheet.amounts.len() != states {
                return ahead(40);
            }
            printed(&sheet)
        })
    }),
    reading("more amounts than states are 5", |bytes| {
        with_sheet(bytes, |sheet| {
            if sheet.amounts.len() > 4 {
                return ahead(5);
            }
            printed(&sheet)
        })
    }),
    reading("an amount that is NaN is 3", |bytes| {
        with_sheet(bytes, |sheet| {
            if sheet.amounts.iter().any(|v| v.is_nan()) {
                return ahead(3);
            }
            printed(&sheet)
        })
    }),
    reading("the run's printout", sheet_run::printout),
    reading("the run's amounts ahead of the closed cycle", |bytes| {
        let run = sheet_run::printout(bytes);
        if run.number == 31 || run.number == 22 {
            return run;
        }
        printout(bytes)
    }),
    // The window.
    reading("a propagation word of 0 is 0", |bytes| {
        with_sheet(bytes, |mut sheet| {
            let words = words(bytes).expect("words");
            sheet.budgets.solver_callbacks = bodies(&words).expect("bodies").window[4];
            printed(&sheet)
        })
    }),
    reading("a propagation word of 0 is 200", |bytes| {
        with_bodies(bytes, |bodies| {
            if bodies.window.len() == WINDOW && bodies.window[4] == 0 {
                bodies.window[4] = 200;
            }
        })
    }),
    reading("a propagation word of 0 is 700", |bytes| {
        with_bodies(bytes, |bodies| {
            if bodies.window.len() == WINDOW && bodies.window[4] == 0 {
                bodies.window[4] = 700;
            }
        })
    }),
    reading("the budgets turned round", |bytes| {
        with_bodies(bytes, |bodies| {
            if bodies.window.len() == WINDOW {
                bodies.window.swap(5, 6);
            }
        })
    }),
    reading("absolute and relative turned round", |bytes| {
        with_bodies(bytes, |bodies| {
            if bodies.window.len() == WINDOW {
                bodies.window.swap(7, 8);
            }
        })
    }),
    reading("rtol and atol as absolute and relative", |bytes| {
        with_bodies(bytes, |bodies| {
            if bodies.window.len() == WINDOW {
                bodies.window.copy_within(2..4, 7);
            }
        })
    }),
    reading("absolute and relative are not looked at", |bytes| {
        with_bodies(bytes, |bodies| {
            if bodies.window.len() == WINDOW {
                bodies.window[7..].fill(1.0_f64.to_bits());
            }
        })
    }),
    reading("a window of seven words", |bytes| {
        with_bodies(bytes, |bodies| {
            if bodies.window.len() >= 7 {
                bodies.window.resize(WINDOW, 1.0_f64.to_bits());
            }
        })
    }),
    // The order of the refusals.
    reading("19 ahead of 1 and 2", |bytes| {
        with_sheet(bytes, |sheet| {
            if !passes(&sheet) {
                return ahead(19);
            }
            printed(&sheet)
        })
    }),
    reading("19 ahead of 5", |bytes| {
        let right = printout(bytes);
        if right.number != 5 {
            return right;
        }
        let words = words(bytes).expect("words");
        let sheet = meaning(&bodies(&words).expect("bodies")).expect("a sheet");
        if passes(&sheet) {
            right
        } else {
            ahead(19)
        }
    }),
    reading("19 ahead of 40 by an event", |bytes| {
        let right = printout(bytes);
        let read = words(bytes).and_then(|words| bodies(&words));
        let sheet = read.and_then(|mut bodies| {
            bodies.events.clear();
            meaning(&bodies)
        });
        match sheet {
            Some(sheet) if right.number == 40 && !passes(&sheet) => ahead(19),
            _ => right,
        }
    }),
    reading("5 ahead of 40", |bytes| {
        let read = words(bytes).and_then(|words| bodies(&words));
        match read {
            Some(bodies)
                if bodies.events.len() / EVENT > EVENTS || bodies.samples.len() > SAMPLES =>
            {
                ahead(5)
            }
            _ => printout(bytes),
        }
    }),
    reading("1 and 2 ahead of 5", |bytes| {
        let right = printout(bytes);
        if right.number != 5 {
            return right;
        }
        let words = words(bytes).expect("words");
        let sheet = meaning(&bodies(&words).expect("bodies")).expect("a sheet");
        match kernel(&sheet) {
            Err(refusal) => refused(refusal),
            Ok(_) => right,
        }
    }),
    // Bytes, events and samples.
    reading("bytes behind the last word are passed over", |bytes| {
        printout(&bytes[..bytes.len() / 8 * 8])
    }),
    reading("the first 8,192 words are read", |bytes| {
        printout(&bytes[..bytes.len().min(8 * WORDS)])
    }),
    reading("8,191 words are the most", |bytes| {
        if bytes.len() / 8 == WORDS {
            return ahead(40);
        }
        printout(bytes)
    }),
    reading("65 events are taken", |bytes| {
        with_bodies(bytes, |bodies| {
            if bodies.events.len() == EVENT * (EVENTS + 1) {
                bodies.events.truncate(EVENT * EVENTS);
            }
        })
    }),
    reading("64 events are 5", |bytes| {
        with_sheet(bytes, |sheet| {
            if sheet.protocol.events.len() == EVENTS {
                return ahead(5);
            }
            printed(&sheet)
        })
    }),
    reading("257 samples are taken", |bytes| {
        with_bodies(bytes, |bodies| {
            if bodies.samples.len() == SAMPLES + 1 {
                bodies.samples.pop();
            }
        })
    }),
    reading("256 samples are 5", |bytes| {
        with_sheet(bytes, |sheet| {
            if sheet.protocol.samples.len() == SAMPLES {
                return ahead(5);
            }
            printed(&sheet)
        })
    }),
    reading("words behind the last event are passed over", |bytes| {
        with_bodies(bytes, |bodies| {
            let whole = bodies.events.len() / EVENT * EVENT;
            bodies.events.truncate(whole);
        })
    }),
    reading("kind 3 is a reset", |bytes| {
        with_events(bytes, |words| words[0] = words[0].min(RESET))
    }),
    reading("orders modulo 65,536", |bytes| {
        with_events(bytes, |words| {
            if words[0] == RESET {
                words[4] %= 65_536;
            }
        })
    }),
    reading("stops of every kind is tested", |bytes| {
        with_events(bytes, |words| {
            if words[5] > 1 {
                words[0] = 3;
            }
        })
    }),
    reading("stops turned round", |bytes| {
        with_events(bytes, |words| {
            if words[0] == RESET && words[5] <= 1 {
                words[5] = 1 - words[5];
            }
        })
    }),
    reading("the order of every kind is tested", |bytes| {
        with_events(bytes, |words| {
            if words[4] > 65_535 && words[0] == BOLUS {
                words[0] = 3;
            }
        })
    }),
    reading("amount and duration turned round", |bytes| {
        with_events(bytes, |words| {
            if words[0] == INFUSION {
                words.swap(3, 4);
            }
        })
    }),
    reading("absorption is tested without a depot", |bytes| {
        with_sheet(bytes, |sheet| {
            let words = words(bytes).expect("words");
            let k = f64::from_bits(bodies(&words).expect("bodies").model[2]);
            if sheet.absorption.is_none() && (!k.is_finite() || k < 0.0) {
                return ahead(1);
            }
            printed(&sheet)
        })
    }),
    reading("the volumes turned round", |bytes| {
        with_sheet(bytes, |mut sheet| {
            sheet.volumes.reverse();
            printed(&sheet)
        })
    }),
    reading("the exchanges turned round", |bytes| {
        with_sheet(bytes, |mut sheet| {
            sheet.exchange.reverse();
            printed(&sheet)
        })
    }),
    // The printout.
    reading("hexadecimal in upper case", |bytes| {
        with_text(bytes, |text| {
            let word = |word: &str| match word.trim_end().len() {
                16 => word.to_uppercase(),
                _ => word.to_string(),
            };
            let words: Vec<String> = text.split_inclusive([' ', '\n']).map(word).collect();
            words.concat()
        })
    }),
    reading("no leading zeros", |bytes| {
        with_text(bytes, |text| text.replace(" 0000", " "))
    }),
    reading("no line feed at the end", |bytes| {
        with_text(bytes, |text| text.trim_end().to_string())
    }),
    reading("a space at the end of a line", |bytes| {
        with_text(bytes, |text| text.replace('\n', " \n"))
    }),
    reading("two spaces between", |bytes| {
        with_text(bytes, |text| text.replace(' ', "  "))
    }),
    reading("an empty line at the end", |bytes| {
        with_text(bytes, |text| format!("{text}\n"))
    }),
    reading("residual, then amount", |bytes| {
        with_lines(bytes, |lines| {
            let last = lines.len() - 1;
            for line in &mut lines[..last] {
                let (amount, residual) = line.split_once(' ').expect("two words");
                *line = format!("{residual} {amount}");
            }
        })
    }),
    reading("amounts alone", |bytes| {
        with_lines(bytes, |lines| {
            let last = lines.len() - 1;
            for line in &mut lines[..last] {
                line.truncate(16);
            }
        })
    }),
    reading("amounts on one line, residuals on the next", |bytes| {
        with_lines(bytes, |lines| {
            let last = lines.pop().expect("a line");
            let pairs: Vec<(&str, &str)> = lines
                .iter()
                .filter_map(|line| line.split_once(' '))
                .collect();
            let amounts: Vec<&str> = pairs.iter().map(|pair| pair.0).collect();
            let residuals: Vec<&str> = pairs.iter().map(|pair| pair.1).collect();
            *lines = vec![amounts.join(" "), residuals.join(" "), last];
        })
    }),
    reading("the states turned round", |bytes| {
        with_lines(bytes, |lines| {
            let last = lines.len() - 1;
            lines[..last].reverse();
        })
    }),
    reading("the count of states first", |bytes| {
        with_lines(bytes, |lines| {
            let count = lines.len() - 1;
            lines.insert(0, format!("rows {count}"));
        })
    }),
    reading("max first", |bytes| {
        with_lines(bytes, |lines| lines.rotate_right(1))
    }),
    reading("no max", |bytes| {
        with_lines(bytes, |lines| {
            lines.pop();
        })
    }),
    reading("max without its name", |bytes| {
        with_lines(bytes, |lines| {
            let last = lines.last_mut().expect("a line");
            *last = last.replace("max ", "");
        })
    }),
    reading("ordered too", |bytes| {
        with_sheet(bytes, |sheet| {
            let right = printed(&sheet);
            if right.number != 0 {
                return right;
            }
            let sum = ordered(&sheet.protocol.events);
            Printout {
                text: format!("{}ordered {}\n", right.text, sheet_run::bits(sum)),
                ..right
            }
        })
    }),
    reading("amounts of -0 as +0", |bytes| {
        with_text(bytes, |text| {
            let zeros = text.replace("\n8000000000000000", "\n0000000000000000");
            match zeros.strip_prefix("8000000000000000") {
                Some(rest) => format!("0000000000000000{rest}"),
                None => zeros,
            }
        })
    }),
    reading("a line for each place, states or not", |bytes| {
        with_lines(bytes, |lines| {
            let zeros = "0000000000000000 0000000000000000".to_string();
            while lines.len() < 5 {
                let last = lines.len() - 1;
                lines.insert(last, zeros.clone());
            }
        })
    }),
    reading("a refusal's number in hexadecimal", |bytes| {
        let right = printout(bytes);
        if right.number == 0 {
            return right;
        }
        Printout {
            text: right.text.replacen(
                &format!("refused {}", right.number),
                &format!("refused {:x}", right.number),
                1,
            ),
            ..right
        }
    }),
    reading("a refusal without its time", |bytes| {
        let right = printout(bytes);
        if right.number == 0 {
            return right;
        }
        Printout {
            text: format!("refused {}\n", right.number),
            ..right
        }
    }),
    reading("32 has its interval's time", |bytes| {
        with_sheet(bytes, |sheet| match of_sheet(&sheet) {
            Err(Refusal { number: 32, .. }) => {
                let times = sheet.protocol.events.iter().map(|event| event.time());
                let time = times.fold(sheet.protocol.start, f64::max);
                refused(Refusal { number: 32, time })
            }
            _ => printed(&sheet),
        })
    }),
    reading("33 has the time of the end", |bytes| {
        with_sheet(bytes, |sheet| match of_sheet(&sheet) {
            Err(Refusal { number: 33, .. }) => refused(Refusal {
                number: 33,
                time: sheet.protocol.end,
            }),
            _ => printed(&sheet),
        })
    }),
    reading("36 still prints its amounts", |bytes| {
        with_sheet(bytes, |mut sheet| {
            let right = printed(&sheet);
            if right.number != 36 {
                return right;
            }
            (sheet.absolute, sheet.relative) = (f64::MAX / 2.0, 0.0);
            printed(&sheet)
        })
    }),
];
