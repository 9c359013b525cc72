//! Random sheets for the comparison of closed cycles: cycles of every kind,
//! broken layouts, and sheets that are changed at random.
use crate::draw::Random;
use crate::sheet::{Bodies, WORDS};
use crate::sheet_broken::BROKEN;
use crate::sheet_draw::{self, bytes, changed, grow, packed, pattern, patterns, states, Kind};
use crate::steady_draw::{self, KINDS};
use crate::steady_entry::Steady;

/// A sheet, and what it was made to be.
pub struct Drawn {
    pub bytes: Vec<u8>,
    pub kind: &'static str,
    /// Whether the layout was broken on purpose.
    pub broken: bool,
}

/// What a sheet can be beside a kind of closed cycle or of broken layout.
pub const NAMED: [&str; 8] = [
    "a sheet of the other comparison",
    "a parameter of the model",
    "a rate that overflows",
    "over a limit",
    "changed at random",
    "words of any pattern",
    "8,192 words",
    "several at once",
];

/// The bodies of a closed cycle's arguments; amounts of any count and pattern.
fn of_steady(given: &Steady, random: &mut Random) -> Bodies {
    let cycle = &given.cycle;
    let list = |values: &[f64]| -> Vec<u64> { values.iter().map(|v| v.to_bits()).collect() };
    let model = &cycle.given;
    let mut words = vec![
        model.clearance.to_bits(),
        u64::from(model.depot),
        model.absorption.to_bits(),
        model.volumes.len() as u64,
    ];
    words.extend(list(&model.volumes));
    words.extend(list(&model.exchange));
    let mut window = list(&[cycle.start, cycle.end, cycle.rtol, cycle.atol]);
    window.extend([
        cycle.propagations,
        cycle.event_budget as u64,
        cycle.output_budget as u64,
    ]);
    window.extend(list(&[given.absolute, given.relative]));
    // Enough for most cycles.
    if random.chance(15) {
        window[4] = 0;
    }
    let count = match random.below(10) {
        0..=2 => 0,
        3..=6 => model.volumes.len() + usize::from(model.depot),
        _ => random.below(9),
    };
    Bodies {
        model: words,
        window,
        amounts: (0..count).map(|_| pattern(random)).collect(),
        samples: list(&cycle.samples),
        events: cycle.words.clone(),
    }
}

/// A closed cycle as bodies, and its kind.
fn bodies(random: &mut Random) -> (Bodies, &'static str) {
    let (given, kind) = steady_draw::steady(random);
    (of_steady(&given, random), kind)
}

/// Bodies whose layout is right.
fn fit(random: &mut Random) -> Bodies {
    loop {
        let bodies = bodies(random).0;
        let words = packed(&bodies);
        if crate::sheet::read(&bytes(&words)).is_ok() {
            return bodies;
        }
    }
}

pub fn sheet(random: &mut Random) -> Drawn {
    let drawn = |bytes: Vec<u8>, kind: &'static str| Drawn {
        bytes,
        kind,
        broken: false,
    };
    let named = |bodies: &Bodies, at: usize| drawn(bytes(&packed(bodies)), NAMED[at]);
    match random.below(1000) {
        0..=629 => {
            let (bodies, kind) = bodies(random);
            drawn(bytes(&packed(&bodies)), kind)
        }
        630..=749 => {
            let broken = &BROKEN[random.below(BROKEN.len())];
            let mut bodies = fit(random);
            // Some layouts are broken by means of the amounts.
            bodies.amounts.resize(states(&bodies), 1.0_f64.to_bits());
            Drawn {
                bytes: (broken.make)(random, bodies),
                kind: broken.name,
                broken: true,
            }
        }
        750..=819 => {
            let sheet = sheet_draw::sheet(random);
            // A broken layout is drawn above.
            match sheet.kind {
                Kind::Broken(at) => Drawn {
                    bytes: sheet.bytes,
                    kind: BROKEN[at].name,
                    broken: true,
                },
                _ => drawn(sheet.bytes, NAMED[0]),
            }
        }
        820..=844 => {
            let mut bodies = fit(random);
            sheet_draw::parameter(random, &mut bodies);
            named(&bodies, 1)
        }
        845..=859 => {
            let mut bodies = fit(random);
            sheet_draw::rate(random, &mut bodies);
            named(&bodies, 2)
        }
        860..=879 => {
            let mut bodies = fit(random);
            sheet_draw::over_limit(random, &mut bodies);
            named(&bodies, 3)
        }
        880..=949 => {
            let bodies = fit(random);
            drawn(changed(random, &bodies), NAMED[4])
        }
        950..=979 => {
            let mut bodies = fit(random);
            patterns(random, &mut bodies);
            named(&bodies, 5)
        }
        980..=983 => {
            let mut bodies = fit(random);
            let more = WORDS - packed(&bodies).len();
            grow(random, &mut bodies, more);
            named(&bodies, 6)
        }
        _ => {
            let mut bodies = fit(random);
            sheet_draw::spoil(random, &mut bodies, 3);
            named(&bodies, 7)
        }
    }
}

/// All kinds: of closed cycles, of broken layouts, and the named ones.
pub fn kinds() -> Vec<&'static str> {
    let broken = BROKEN.iter().map(|broken| broken.name);
    KINDS.into_iter().chain(broken).chain(NAMED).collect()
}
