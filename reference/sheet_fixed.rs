//! Fixed sheets: document 01's own, and the shortest ones that tell its
//! readings apart, with the number that each must have.
use crate::draw::TWO_59;
use crate::run_entry::{BOLUS, EVENT, INFUSION, RESET};
use crate::sheet::{Bodies, EVENTS, HEAD, SAMPLES, WORDS};
use crate::sheet_draw::{bytes, packed, WHOLE};
use crate::sheet_run::Printout;

pub struct Fixed {
    pub name: &'static str,
    pub bytes: Vec<u8>,
    number: u64,
    /// The printout, where it is known.
    text: Option<&'static str>,
}

const MAX: f64 = f64::MAX;
/// A NaN with a payload, as bits.
const PAYLOAD: u64 = 0x7ff4_0000_0000_00aa;
const ZERO: u64 = 0;
const NEGATIVE_ZERO: u64 = 1 << 63;

/// Clearance 0, volume 1, window 0 to 1, amount 3, tolerances 1, budgets 100.
pub fn still() -> Bodies {
    let one = 1.0_f64.to_bits();
    Bodies {
        model: vec![0, 0, 0, 1, one],
        window: vec![0, one, one, one, 100, 100, 100, one, one],
        amounts: vec![3.0_f64.to_bits()],
        samples: vec![],
        events: vec![],
    }
}

/// A depot and three compartments.
pub fn whole() -> Bodies {
    let model = [4.2, 0.0, 0.9, 0.0, 12.0, 25.5, 7.25, 3.5, 1.75].map(f64::to_bits);
    let mut bodies = Bodies {
        model: model.to_vec(),
        amounts: [100.0, 20.0, 5.0, 1.5].map(f64::to_bits).to_vec(),
        ..still()
    };
    (bodies.model[1], bodies.model[3]) = (1, 3);
    bodies
}

impl Bodies {
    pub fn with(mut self, change: impl FnOnce(&mut Bodies)) -> Bodies {
        change(&mut self);
        self
    }
    pub fn clearance(self, clearance: f64) -> Bodies {
        self.with(|bodies| bodies.model[0] = clearance.to_bits())
    }
    pub fn window(self, start: f64, end: f64) -> Bodies {
        self.with(|bodies| bodies.window[..2].copy_from_slice(&[start, end].map(f64::to_bits)))
    }
    pub fn amounts(self, amounts: &[f64]) -> Bodies {
        self.with(|bodies| bodies.amounts = amounts.iter().map(|v| v.to_bits()).collect())
    }
    pub fn samples(self, samples: &[f64]) -> Bodies {
        self.with(|bodies| bodies.samples = samples.iter().map(|v| v.to_bits()).collect())
    }
    pub fn event(self, words: [u64; EVENT]) -> Bodies {
        self.with(|bodies| bodies.events.extend(words))
    }
    pub fn bolus(self, time: f64, target: u64, amount: f64) -> Bodies {
        self.event([BOLUS, time.to_bits(), target, amount.to_bits(), 0, 0])
    }
    pub fn infusion(self, time: f64, target: u64, amount: f64, duration: f64) -> Bodies {
        let duration = duration.to_bits();
        self.event([
            INFUSION,
            time.to_bits(),
            target,
            amount.to_bits(),
            duration,
            0,
        ])
    }
    pub fn reset(self, time: f64, target: u64, value: f64, order: u64, stops: u64) -> Bodies {
        self.event([RESET, time.to_bits(), target, value.to_bits(), order, stops])
    }
    /// A word of the window.
    pub fn set(self, place: usize, word: u64) -> Bodies {
        self.with(|bodies| bodies.window[place] = word)
    }
    /// This many of the last event.
    pub fn events(self, count: usize) -> Bodies {
        self.with(|bodies| {
            let last = bodies.events[bodies.events.len() - EVENT..].to_vec();
            while bodies.events.len() < EVENT * count {
                bodies.events.extend(&last);
            }
        })
    }
    pub fn gives(self, name: &'static str, number: u64) -> Fixed {
        Fixed {
            name,
            bytes: bytes(&packed(&self)),
            number,
            text: None,
        }
    }
    pub fn prints(self, name: &'static str, text: &'static str) -> Fixed {
        Fixed {
            text: Some(text),
            ..self.gives(name, 0)
        }
    }
    /// Refused with this line.
    pub fn refused(self, name: &'static str, number: u64, text: &'static str) -> Fixed {
        Fixed {
            text: Some(text),
            ..self.gives(name, number)
        }
    }
    /// With the words of the file changed: 40.
    pub fn broken(self, name: &'static str, change: impl FnOnce(&mut Vec<u64>)) -> Fixed {
        let mut words = packed(&self);
        change(&mut words);
        raw(name, bytes(&words), 40)
    }
}

pub fn raw(name: &'static str, bytes: Vec<u8>, number: u64) -> Fixed {
    Fixed {
        name,
        bytes,
        number,
        text: None,
    }
}

impl Fixed {
    /// Whether the sheet is among the stored ones: not the longest runs, and of
    /// the sheets at the limit of words one from each side.
    pub fn stored(&self) -> bool {
        match self.name {
            "8,192 words" | "8,193 words" => true,
            // Words that take much text.
            "5 ahead of 11" => false,
            _ => self.bytes.len() <= 8 * 420,
        }
    }

    /// Holds the Rust's printout to what is known of it.
    pub fn hold(&self, printout: &Printout) {
        assert_eq!(printout.number, self.number, "{}", self.name);
        if let Some(text) = self.text {
            assert_eq!(printout.text, text, "{}", self.name);
        }
    }
}

pub fn sheets() -> Vec<Fixed> {
    let mut all = printouts();
    all.extend(accepted());
    all.extend(refusals());
    all.extend(in_order());
    all.extend(layouts());
    all.extend(long());
    all
}

/// Two sheets cut at every byte, with every single bit turned, and with every
/// word replaced by each of a list.
pub fn changes() -> Vec<Vec<u8>> {
    let one = still()
        .bolus(0.0, 0, 1.0)
        .infusion(0.25, 0, 2.0, 0.5)
        .reset(0.5, 0, 4.0, 7, 1)
        .samples(&[0.75]);
    let four = whole()
        .bolus(0.0, 0, 50.0)
        .infusion(0.125, 1, 8.0, 0.75)
        .reset(0.5, 2, 1.0, 0, 0)
        .samples(&[0.25, 0.0625]);
    let mut all = vec![];
    for bodies in [one, four] {
        let words = packed(&bodies);
        let whole = bytes(&words);
        all.extend((0..whole.len()).map(|length| whole[..length].to_vec()));
        for at in 0..words.len() {
            let turned = (0..64).map(|bit| words[at] ^ 1 << bit);
            for word in turned.chain(WHOLE) {
                let mut changed = words.clone();
                changed[at] = word;
                all.push(bytes(&changed));
            }
        }
    }
    all
}

/// The places where bits, order and signs surface in a printout.
fn printouts() -> Vec<Fixed> {
    vec![
        still().bolus(0.0, 0, 1.0).prints(
            "the printout of document 01",
            "rows 3\n\
             0000000000000000 pre 4008000000000000\n\
             0000000000000000 post 4010000000000000\n\
             3ff0000000000000 post 4010000000000000\n\
             ordered 3ff0000000000000\n",
        ),
        still().prints(
            "no event, no sample",
            "rows 2\n\
             0000000000000000 post 4008000000000000\n\
             3ff0000000000000 post 4008000000000000\n\
             ordered 0000000000000000\n",
        ),
        still().bolus(-0.0, 0, 1.0).prints(
            "an event at -0, the start at +0",
            "rows 3\n\
             8000000000000000 pre 4008000000000000\n\
             8000000000000000 post 4010000000000000\n\
             3ff0000000000000 post 4010000000000000\n\
             ordered 3ff0000000000000\n",
        ),
        still().amounts(&[-0.0]).bolus(0.0, 0, -0.0).prints(
            "amounts of -0, and ordered is +0",
            "rows 3\n\
             0000000000000000 pre 8000000000000000\n\
             0000000000000000 post 8000000000000000\n\
             3ff0000000000000 post 0000000000000000\n\
             ordered 0000000000000000\n",
        ),
        still().window(-1.0, 1.0).samples(&[0.0, -0.0]).prints(
            "a sample of +0, then one of -0",
            "rows 3\n\
             bff0000000000000 post 4008000000000000\n\
             8000000000000000 post 4008000000000000\n\
             3ff0000000000000 post 4008000000000000\n\
             ordered 0000000000000000\n",
        ),
        whole()
            .with(|bodies| bodies.model[7..].fill(0))
            .clearance(0.0)
            .bolus(1.0, 2, MAX)
            .bolus(1.0, 3, MAX)
            .gives("ordered is infinite", 0),
        // 1 and twice 2^-53 is 1 from the left, and more from the right.
        still()
            .bolus(0.0, 0, 1.0)
            .bolus(0.0, 0, f64::EPSILON / 2.0)
            .bolus(0.0, 0, f64::EPSILON / 2.0)
            .gives("ordered goes by the list", 0),
        still()
            .infusion(0.0, 0, 2.0, 0.5)
            .reset(0.25, 0, 7.0, 0, 1)
            .gives("ordered has the whole of a cut infusion and no reset", 0),
        whole()
            .bolus(0.0, 0, 50.0)
            .infusion(0.25, 1, 8.0, 0.5)
            .samples(&[0.125, 0.875])
            .gives("four states", 0),
        still().samples(&[0.5, 0.25, 0.5]).gives("equal samples", 0),
        still()
            .with(|bodies| {
                bodies.model = [1.5, 0.0, 0.0, 0.0, 2.0, 4.0, 0.75]
                    .map(f64::to_bits)
                    .to_vec()
            })
            .with(|bodies| bodies.model[3] = 2)
            .amounts(&[8.0, 1.0])
            .gives("two compartments", 0),
        still()
            .window(0.0, 5.0)
            .bolus(1.0, 0, 1.0)
            .bolus(2.0, 0, 1.0)
            .bolus(3.0, 0, 1.0)
            .bolus(4.0, 0, 1.0)
            .gives("ten rows", 0),
    ]
}

/// What a sheet may hold without a refusal.
fn accepted() -> Vec<Fixed> {
    vec![
        still()
            .with(|bodies| bodies.model[2] = PAYLOAD)
            .gives("absorption NaN without a depot", 0),
        still()
            .with(|bodies| bodies.model[2] = (-1.0_f64).to_bits())
            .gives("absorption below 0 without a depot", 0),
        still()
            .set(7, PAYLOAD)
            .set(8, (-1.0_f64).to_bits())
            .gives("absolute and relative are not looked at", 0),
        still()
            .event([BOLUS, 0, 0, 0, PAYLOAD, u64::MAX])
            .gives("words that a bolus lacks", 0),
        still()
            .event([INFUSION, 0, 0, 0, 1.0_f64.to_bits(), 2])
            .gives("the word that an infusion lacks", 0),
        still()
            .set(4, 0)
            .samples(&[0.5])
            .gives("a propagation word of 0 is no budget of 0", 0),
        still()
            .set(4, u64::MAX)
            .set(5, u64::MAX)
            .set(6, u64::MAX)
            .gives("the largest budgets", 0),
        still().set(4, 1).gives("the budget of its only advance", 0),
        still()
            .set(4, 1 << 32)
            .gives("a budget of 2^32 propagations", 0),
        still()
            .set(5, 0)
            .set(6, 2)
            .gives("budgets of no event and two values", 0),
        still()
            .reset(0.0, 0, 1.0, 65_535, 0)
            .gives("the largest order", 0),
        still()
            .with(|bodies| bodies.model[0] = NEGATIVE_ZERO)
            .gives("a clearance of -0", 0),
    ]
}

/// One refusal at a time.
fn refusals() -> Vec<Fixed> {
    let with_depot = || {
        still().with(|bodies| {
            bodies.model[1] = 1;
            bodies.amounts.push(ZERO);
        })
    };
    vec![
        still().samples(&[0.0; SAMPLES + 1]).refused(
            "257 samples",
            5,
            "refused 5 0000000000000000\n",
        ),
        still().clearance(-1.0).gives("1 by the clearance", 1),
        still()
            .with(|bodies| bodies.model[0] = PAYLOAD)
            .gives("1 by a NaN", 1),
        still()
            .with(|bodies| bodies.model[4] = ZERO)
            .gives("1 by a volume of 0", 1),
        with_depot()
            .with(|bodies| bodies.model[2] = PAYLOAD)
            .gives("1 by the absorption of a depot", 1),
        still()
            .with(|bodies| bodies.model[3] = 2)
            .with(|bodies| bodies.model.extend([1.0_f64, -1.0].map(f64::to_bits)))
            .gives("1 by an exchange", 1),
        still()
            .clearance(MAX)
            .with(|bodies| bodies.model[4] = 0.5_f64.to_bits())
            .gives("2", 2),
        still().amounts(&[]).gives("3 by no amount", 3),
        still()
            .amounts(&[3.0, 3.0])
            .gives("3 by an amount too many", 3),
        still().amounts(&[3.0; 6]).gives("3 by six amounts", 3),
        whole()
            .amounts(&[3.0; 5])
            .gives("3 by five amounts for four states", 3),
        still().amounts(&[-1.0]).gives("3 by an amount below 0", 3),
        still()
            .with(|bodies| bodies.amounts = vec![PAYLOAD])
            .gives("3 by a NaN", 3),
        still().window(-MAX, MAX).samples(&[0.0]).refused(
            "3 in a run",
            3,
            "refused 3 7fefffffffffffff\n",
        ),
        still()
            .window(1.0, 1.0)
            .gives("10 by a window of no length", 10),
        still()
            .window(0.0, -0.0)
            .gives("10 by a window from +0 to -0", 10),
        still()
            .window(0.0, f64::INFINITY)
            .gives("10 by an end that is not finite", 10),
        still().set(2, ZERO).gives("10 by rtol", 10),
        still().set(3, PAYLOAD).gives("10 by atol", 10),
        still()
            .samples(&[2.0])
            .gives("11 by a sample behind the end", 11),
        still()
            .with(|bodies| bodies.samples = vec![PAYLOAD])
            .gives("11 by a NaN", 11),
        still().bolus(2.0, 0, 1.0).gives("12 by a time", 12),
        still().bolus(0.0, 1, 1.0).gives("12 by a target", 12),
        still()
            .bolus(0.0, u64::MAX, 1.0)
            .gives("12 by the largest target", 12),
        still()
            .bolus(0.0, 1 << 32, 1.0)
            .gives("12 by a target of 33 bits", 12),
        still().bolus(0.0, 0, -1.0).gives("12 by an amount", 12),
        still()
            .infusion(0.0, 0, 1.0, 2.0)
            .gives("12 by an infusion behind the end", 12),
        still()
            .infusion(0.0, 0, 1.0, 0.0)
            .gives("12 by a duration of 0", 12),
        still()
            .infusion(0.0, 0, MAX, 0.5)
            .gives("12 by amount over duration", 12),
        still()
            .reset(0.0, 0, f64::INFINITY, 0, 0)
            .gives("12 by a value", 12),
        still()
            .reset(-0.0, 0, 1.0, 1, 0)
            .reset(0.0, 0, 1.0, 1, 0)
            .gives("12 by an order used twice, at -0 and +0", 12),
        still()
            .bolus(0.0, 0, 1.0)
            .set(5, 0)
            .gives("13 by a budget of 0", 13),
        still().set(6, 1).gives("14 by a budget one too small", 14),
        still()
            .samples(&[0.5, 0.5])
            .set(6, 3)
            .gives("14 counts equal samples", 14),
        still().clearance(1e308).window(0.0, 10.0).refused(
            "20",
            20,
            "refused 20 4024000000000000\n",
        ),
        still().clearance(TWO_59).gives("60 halvings", 0),
        still()
            .clearance(TWO_59 + 128.0)
            .refused("21", 21, "refused 21 3ff0000000000000\n"),
        still()
            .window(0.0, 4.0)
            .infusion(0.0, 0, MAX, 4.0)
            .infusion(0.0, 0, MAX, 4.0)
            .refused(
                "22 by rate times duration",
                22,
                "refused 22 4010000000000000\n",
            ),
        still().amounts(&[MAX]).infusion(0.0, 0, MAX, 1.0).refused(
            "22 by an amount",
            22,
            "refused 22 3ff0000000000000\n",
        ),
        still()
            .set(4, 1)
            .samples(&[0.5])
            .refused("30", 30, "refused 30 3ff0000000000000\n"),
        still()
            .window(-1.0, 1.0)
            .reset(-0.0, 0, -1.0, 0, 0)
            .refused("31 at -0", 31, "refused 31 8000000000000000\n"),
        still().amounts(&[MAX]).bolus(1.0, 0, MAX).refused(
            "31 by a bolus",
            31,
            "refused 31 3ff0000000000000\n",
        ),
        still()
            .window(-2.0, 1.0)
            .infusion(-1.0, 0, MAX, 1.0)
            .infusion(-1.0, 0, MAX, 1.0)
            .refused("32 has time +0", 32, "refused 32 0000000000000000\n"),
    ]
}

/// Two that fail, and the first in order is given.
fn in_order() -> Vec<Fixed> {
    let many = [0.0; SAMPLES + 1];
    let unfit = || still().bolus(f64::NAN, 9, f64::NAN);
    vec![
        still()
            .samples(&many)
            .event([3, 0, 0, 0, 0, 0])
            .gives("40 ahead of 5", 40),
        still()
            .samples(&many)
            .clearance(-1.0)
            .gives("5 ahead of 1", 5),
        still()
            .samples(&many)
            .clearance(MAX)
            .with(|bodies| bodies.model[4] = 0.5_f64.to_bits())
            .gives("5 ahead of 2", 5),
        still().samples(&many).amounts(&[]).gives("5 ahead of 3", 5),
        still()
            .samples(&many)
            .window(1.0, 1.0)
            .gives("5 ahead of 10", 5),
        still()
            .samples(&[f64::NAN; SAMPLES + 1])
            .gives("5 ahead of 11", 5),
        still()
            .clearance(-1.0)
            .amounts(&[])
            .gives("1 ahead of 3", 1),
        still()
            .clearance(MAX)
            .with(|bodies| bodies.model[4] = 0.5_f64.to_bits())
            .amounts(&[])
            .gives("2 ahead of 3", 2),
        unfit().clearance(-1.0).set(5, 0).gives("1 ahead of 13", 1),
        unfit().amounts(&[]).set(5, 0).gives("3 ahead of 13", 3),
        still()
            .amounts(&[])
            .window(1.0, 1.0)
            .gives("3 ahead of 10", 3),
        unfit().set(5, 0).set(2, 0).gives("13 ahead of 10", 13),
        still()
            .window(1.0, 1.0)
            .samples(&[2.0])
            .gives("10 ahead of 11", 10),
        unfit().samples(&[2.0]).gives("11 ahead of 12", 11),
        unfit().set(6, 0).gives("12 ahead of 14", 12),
        still()
            .set(6, 0)
            .reset(0.0, 0, -1.0, 0, 0)
            .gives("14 ahead of the run", 14),
    ]
}

/// Layouts that are broken in one place.
fn layouts() -> Vec<Fixed> {
    let own = || still().bolus(0.0, 0, 1.0);
    let whole_bytes = bytes(&packed(&own()));
    let mut all = vec![
        own().broken("word 0 is 4", |words| words[0] = 4),
        own().broken("word 0 is 6", |words| words[0] = 6),
        own().broken("word 0 is 5 and 256", |words| words[0] = 261),
        own().broken("a word behind the end", |words| words.push(0)),
        own().broken("the last word is missing", |words| {
            words.pop();
        }),
        own().broken("the model's first word is 12", |words| words[1] = 12),
        own().broken("the model's first word is 0", |words| words[1] = 0),
        own().broken("a count of 2^64 - 1", |words| words[10] = u64::MAX),
        own().broken("a first word of 2^64 - 1", |words| words[9] = u64::MAX),
        own().broken("a count with a bit of 2^61", |words| words[10] |= 1 << 61),
        own().broken("a first word with a bit of 2^32", |words| {
            words[9] |= 1 << 32
        }),
        own().broken("counts that wrap to the right place", |words| {
            // The amounts end ahead of their start.
            words[6] = u64::MAX;
            words[7] = 24;
            words[8] = 2;
        }),
        own().broken("samples over the amounts", |words| {
            words[7] = 25;
            words[8] = 1;
        }),
        own().broken("an empty body at the end of the file", |words| {
            words[7] = words.len() as u64;
        }),
        own().broken("a gap", |words| {
            words.insert(26, 0);
            words[7] += 1;
            words[9] += 1;
        }),
        own().broken("amounts and events swapped in the file", |words| {
            words.swap(5, 9);
            words.swap(6, 10);
            let events: Vec<u64> = words.drain(26..).collect();
            words.splice(25..25, events);
            words[9] = 25;
            words[5] = 31;
            words[7] = 31;
        }),
        still()
            .with(|bodies| bodies.model[1] = 2)
            .gives("depot 2", 40),
        still()
            .with(|bodies| bodies.model[1] = 1 << 32)
            .gives("depot 2^32", 40),
        still()
            .with(|bodies| bodies.model[3] = 0)
            .gives("no volume", 40),
        still()
            .with(|bodies| {
                bodies.model[3] = 0;
                bodies.model.truncate(3);
            })
            .gives("a model of three words", 40),
        still()
            .with(|bodies| {
                bodies.model[3] = 4;
                bodies.model.resize(11, 1.0_f64.to_bits());
            })
            .gives("four volumes", 40),
        still()
            .with(|bodies| bodies.model[3] = (1 << 63) + 1)
            .gives("a volume count whose double wraps", 40),
        still()
            .with(|bodies| bodies.model[3] = (1 << 32) + 1)
            .gives("a volume count of 33 bits", 40),
        still()
            .with(|bodies| bodies.model.push(ZERO))
            .gives("as many exchanges as volumes", 40),
        still()
            .with(|bodies| {
                bodies.model[3] = 2;
                bodies.model.push(1.0_f64.to_bits());
            })
            .gives("an exchange too few", 40),
        still()
            .with(|bodies| {
                bodies.window.pop();
            })
            .gives("a window of eight words", 40),
        still()
            .with(|bodies| bodies.window.push(ZERO))
            .gives("a window of ten words", 40),
        still()
            .with(|bodies| bodies.events.push(ZERO))
            .gives("an event of one word", 40),
        still().event([3, 0, 0, 0, 0, 0]).gives("kind 3", 40),
        still()
            .event([1 << 32, 0, 0, 0, 0, 0])
            .gives("kind 2^32", 40),
        still()
            .reset(0.0, 0, 1.0, 65_536, 0)
            .gives("order 65,536", 40),
        still()
            .reset(0.0, 0, 1.0, 1 << 32, 0)
            .gives("order 2^32", 40),
        still().reset(0.0, 0, 1.0, 0, 2).gives("stops 2", 40),
        still().reset(0.0, 0, 1.0, 0, 256).gives("stops 256", 40),
        raw("no bytes", vec![], 40),
        raw("one byte", vec![5], 40),
        raw("word 0 alone", bytes(&[5]), 40),
        raw("a head of ten words", whole_bytes[..80].to_vec(), 40),
        raw("a head alone", whole_bytes[..8 * HEAD].to_vec(), 40),
        raw(
            "the last byte is missing",
            whole_bytes[..whole_bytes.len() - 1].to_vec(),
            40,
        ),
        raw(
            "high bytes first",
            packed(&own())
                .iter()
                .flat_map(|word| word.to_be_bytes())
                .collect(),
            40,
        ),
    ];
    let mut longer = whole_bytes.clone();
    longer.push(0);
    all.push(raw("a byte behind the end", longer, 40));
    all
}

/// The longest run: 64 infusions and 256 samples, no two times equal.
pub fn full(bodies: Bodies, states: u64) -> Bodies {
    let mut full = bodies
        .window(0.0, 1000.0)
        .set(4, 0)
        .set(5, 64)
        .set(6, 514 * states);
    for i in 0..EVENTS {
        let time = 1.0 + 2.0 * i as f64;
        let target = i as u64 % states;
        full = full.infusion(time, target, 1.0 + i as f64, 400.0 - i as f64 / 4.0);
    }
    let samples: Vec<f64> = (0..SAMPLES).map(|i| 0.0625 + 3.5 * i as f64).collect();
    full.samples(&samples)
}

/// The limits, from both sides.
fn long() -> Vec<Fixed> {
    let words_to = |total: usize| {
        still().with(|bodies| {
            let more = total - packed(bodies).len();
            bodies.amounts.resize(1 + more, ZERO);
        })
    };
    let mut longer = bytes(&packed(&words_to(WORDS)));
    longer.push(0);
    vec![
        still()
            .bolus(0.0, 0, 1.0)
            .events(EVENTS)
            .set(6, 1000)
            .gives("64 events", 0),
        still()
            .bolus(0.0, 0, 1.0)
            .events(EVENTS + 1)
            .set(6, 1000)
            .gives("65 events", 5),
        still()
            .samples(&[0.0; SAMPLES])
            .set(6, 1000)
            .gives("256 samples", 0),
        words_to(WORDS).gives("8,192 words", 3),
        words_to(WORDS + 1).gives("8,193 words", 40),
        raw("a byte behind 8,192 words", longer, 40),
        still()
            .bolus(0.0, 0, 1.0)
            .events(1361)
            .gives("8,192 words with 1,361 events", 5),
        full(whole(), 4).gives("64 infusions and 256 samples", 0),
        full(still(), 1).gives("64 infusions and 256 samples for one state", 0),
        full(whole(), 4)
            .set(4, 384)
            .gives("one advance fewer than the longest run has", 30),
    ]
}
