//! Fixed cycles: the bench values of document 01 that a fold has, and inputs
//! that tell its readings apart; and cycles for slices of every length.
use crate::cycle_entry::{made_cycle, Answer, Cycle, EVENTS, SAMPLES};
use crate::draw::Parameters;
use crate::rust_cycle::encoded;
use crate::rust_run::{BOLUS, EVENT, INFUSION, RESET};
use qspquest_core::ActiveInputs;
use qspquest_modeling::Event;

/// A cycle, and what must hold of the Rust's answer to it.
pub struct Fixed {
    pub name: &'static str,
    pub cycle: Cycle,
    number: u64,
    /// The count of pieces, and the pieces where they are known.
    count: usize,
    known: Option<Vec<Event>>,
}

const MAX: f64 = f64::MAX;
const EPSILON: f64 = f64::EPSILON;
/// 2^-53.
const HALF: f64 = EPSILON / 2.0;

fn ulps(count: u64) -> f64 {
    f64::from_bits(count)
}

fn of(name: &'static str, volumes: &[f64], exchange: &[f64]) -> Fixed {
    let given = Parameters {
        clearance: 1.0,
        volumes: volumes.to_vec(),
        exchange: exchange.to_vec(),
        depot: false,
        absorption: f64::NAN,
    };
    Fixed {
        name,
        cycle: Cycle {
            start: 0.0,
            end: 8.0,
            rtol: 1.0,
            atol: 1.0,
            propagations: 1000,
            event_budget: 1000,
            output_budget: 1_000_000,
            ..made_cycle(&given).expect("fixed parameters are taken")
        },
        number: 0,
        count: 0,
        known: None,
    }
}

/// One state, a cycle from 0 to 8.
fn one(name: &'static str) -> Fixed {
    of(name, &[1.0], &[])
}

/// Two states.
fn two(name: &'static str) -> Fixed {
    of(name, &[2.0, 4.0], &[0.7])
}

fn given(time: f64, target: usize, amount: f64, duration: f64) -> Event {
    Event::Infusion {
        time,
        target,
        amount,
        duration,
    }
}

fn dose(time: f64, target: usize, amount: f64) -> Event {
    Event::Bolus {
        time,
        target,
        amount,
    }
}

/// A stopping reset to 0 with order 0.
fn halt(time: f64, target: usize) -> Event {
    Event::Reset {
        time,
        target,
        value: 0.0,
        order: 0,
        active_inputs: ActiveInputs::StopTarget,
    }
}

impl Fixed {
    fn with(mut self, change: impl FnOnce(&mut Cycle)) -> Fixed {
        change(&mut self.cycle);
        self
    }

    fn window(self, start: f64, end: f64) -> Fixed {
        self.with(|cycle| (cycle.start, cycle.end) = (start, end))
    }

    /// With cells that `new` did not make.
    fn forged(self, change: impl FnOnce(&mut Vec<f64>)) -> Fixed {
        self.with(|cycle| {
            cycle.rust = None;
            change(&mut cycle.cells);
        })
    }

    fn samples(self, samples: &[f64]) -> Fixed {
        self.with(|cycle| cycle.samples = samples.to_vec())
    }

    fn budget(self, budget: usize) -> Fixed {
        self.with(|cycle| cycle.event_budget = budget)
    }

    fn event(self, words: [u64; EVENT]) -> Fixed {
        self.with(|cycle| cycle.words.extend(words))
    }

    /// Words that the kind lacks hold something.
    fn bolus(self, time: f64, target: u64, amount: f64) -> Fixed {
        let (fifth, sixth) = (u64::MAX, 7);
        self.event([
            BOLUS,
            time.to_bits(),
            target,
            amount.to_bits(),
            fifth,
            sixth,
        ])
    }

    fn infusion(self, time: f64, target: u64, amount: f64, duration: f64) -> Fixed {
        let sixth = 2;
        self.event([
            INFUSION,
            time.to_bits(),
            target,
            amount.to_bits(),
            duration.to_bits(),
            sixth,
        ])
    }

    /// A reset to 0 whose order is its place in the list.
    fn reset(self, time: f64, target: u64, stops: bool) -> Fixed {
        let order = self.cycle.event_count() as u64;
        self.event([RESET, time.to_bits(), target, 0, order, u64::from(stops)])
    }

    fn refused(mut self, number: u64) -> Fixed {
        self.number = number;
        self
    }

    fn done(mut self, count: usize) -> Fixed {
        self.count = count;
        self
    }

    fn gives(self, known: &[Event]) -> Fixed {
        let mut fixed = self.done(known.len());
        fixed.known = Some(known.to_vec());
        fixed
    }

    /// Holds the Rust's answer to what is known of it.
    pub fn hold(&self, answer: &Answer) {
        let name = self.name;
        assert_eq!(answer.number, self.number, "{name}");
        assert_eq!(answer.pieces.len(), self.count, "{name}");
        if let Some(known) = &self.known {
            assert_eq!(answer.words(), encoded(known), "{name}");
        }
    }
}

pub fn cases() -> Vec<Fixed> {
    let mut cases = pieces();
    cases.extend(periods());
    cases.extend(resets());
    cases.extend(rounded());
    cases.extend(refused());
    cases.extend(in_order());
    cases.extend(long());
    cases
}

/// Head and tail, and events that are copied.
fn pieces() -> Vec<Fixed> {
    vec![
        one("P4")
            .infusion(6.0, 0, 10.0, 5.0)
            .gives(&[given(6.0, 0, 4.0, 2.0), given(0.0, 0, 6.0, 3.0)]),
        one("no event").gives(&[]),
        one("events that are copied, in list order")
            .bolus(4.0, 0, 1.0)
            .reset(2.0, 0, false)
            .bolus(0.0, 0, -0.0)
            .event([RESET, 2.0_f64.to_bits(), 0, (-1.0_f64).to_bits(), 65_535, 1])
            .gives(&[
                dose(4.0, 0, 1.0),
                Event::Reset {
                    time: 2.0,
                    target: 0,
                    value: 0.0,
                    order: 1,
                    active_inputs: ActiveInputs::Continue,
                },
                dose(0.0, 0, -0.0),
                Event::Reset {
                    time: 2.0,
                    target: 0,
                    value: -1.0,
                    order: 65_535,
                    active_inputs: ActiveInputs::StopTarget,
                },
            ]),
        one("an infusion inside the cycle")
            .infusion(2.0, 0, 6.0, 3.0)
            .gives(&[given(2.0, 0, 6.0, 3.0)]),
        one("an infusion up to the end")
            .infusion(6.0, 0, 6.0, 2.0)
            .gives(&[given(6.0, 0, 6.0, 2.0)]),
        // 5 over 3 by 1 is not 5 times a third.
        one("amounts are rate times length")
            .infusion(7.0, 0, 5.0, 3.0)
            .gives(&[
                given(7.0, 0, 5.0 / 3.0, 1.0),
                given(0.0, 0, 5.0 / 3.0 * 2.0, 2.0),
            ]),
        one("an infusion of amount 0")
            .infusion(6.0, 0, 0.0, 5.0)
            .gives(&[given(6.0, 0, 0.0, 2.0), given(0.0, 0, 0.0, 3.0)]),
        one("an infusion of amount -0")
            .infusion(6.0, 0, -0.0, 5.0)
            .gives(&[given(6.0, 0, -0.0, 2.0), given(0.0, 0, -0.0, 3.0)]),
        two("two infusions on one target, one on another")
            .infusion(6.0, 1, 10.0, 5.0)
            .infusion(1.0, 0, 2.0, 2.0)
            .infusion(7.0, 1, 4.0, 2.0)
            .gives(&[
                given(6.0, 1, 4.0, 2.0),
                given(0.0, 1, 6.0, 3.0),
                given(1.0, 0, 2.0, 2.0),
                given(7.0, 1, 2.0, 1.0),
                given(0.0, 1, 2.0, 1.0),
            ]),
        one("an event at -0, the start at +0")
            .bolus(-0.0, 0, 1.0)
            .gives(&[dose(-0.0, 0, 1.0)]),
        one("a start of -0")
            .window(-0.0, 8.0)
            .infusion(6.0, 0, 20.0, 20.0)
            .gives(&[
                given(-0.0, 0, 16.0, 8.0),
                given(6.0, 0, 2.0, 2.0),
                given(-0.0, 0, 2.0, 2.0),
            ]),
        one("samples at both ends")
            .samples(&[8.0, 0.0, -0.0, 4.0, 4.0])
            .bolus(7.0, 0, 1.0)
            .gives(&[dose(7.0, 0, 1.0)]),
        one("budgets of propagations and outputs are not looked at")
            .with(|cycle| (cycle.propagations, cycle.output_budget) = (0, 0))
            .bolus(7.0, 0, 1.0)
            .gives(&[dose(7.0, 0, 1.0)]),
    ]
}

/// Whole periods.
fn periods() -> Vec<Fixed> {
    vec![
        one("P5").infusion(6.0, 0, 20.0, 20.0).gives(&[
            given(0.0, 0, 16.0, 8.0),
            given(6.0, 0, 2.0, 2.0),
            given(0.0, 0, 2.0, 2.0),
        ]),
        one("one period and a part")
            .infusion(0.0, 0, 10.0, 10.0)
            .gives(&[given(0.0, 0, 8.0, 8.0), given(0.0, 0, 2.0, 2.0)]),
        one("one period")
            .infusion(3.0, 0, 8.0, 8.0)
            .gives(&[given(0.0, 0, 8.0, 8.0)]),
        one("three periods")
            .infusion(3.0, 0, 48.0, 24.0)
            .gives(&[given(0.0, 0, 48.0, 8.0)]),
        one("just below one period")
            .window(0.0, 1.0)
            .infusion(0.0, 0, 1.0, 1.0 - HALF)
            .gives(&[given(0.0, 0, 1.0, 1.0 - HALF)]),
        // The quotient is 5 to the nearest, and below it.
        one("the quotient rounds up")
            .window(0.0, 0.1)
            .infusion(0.0, 0, 0.5, 0.5)
            .gives(&[
                given(0.0, 0, 0.5, 0.1),
                given(0.0, 0, 0.099_999_999_999_999_98, 0.099_999_999_999_999_98),
            ]),
        one("(rate times period) times count")
            .window(0.0, 0.2)
            .infusion(0.0, 0, 3.0, 1.0)
            .gives(&[
                given(0.0, 0, 3.000_000_000_000_000_4, 0.2),
                given(
                    0.0,
                    0,
                    3.0 * 0.199_999_999_999_999_96,
                    0.199_999_999_999_999_96,
                ),
            ]),
        one("1e300 over a cycle of 7 leaves 1")
            .window(0.0, 7.0)
            .infusion(0.0, 0, 1e300, 1e300)
            .gives(&[
                given(0.0, 0, 7.0 * (1e300_f64 / 7.0).floor(), 7.0),
                given(0.0, 0, 1.0, 1.0),
            ]),
        one("a subnormal cycle leaves 4 units")
            .window(0.0, ulps(9))
            .infusion(ulps(7), 0, ulps(22), ulps(22))
            .gives(&[
                given(0.0, 0, ulps(18), ulps(9)),
                given(ulps(7), 0, ulps(2), ulps(2)),
                given(0.0, 0, ulps(2), ulps(2)),
            ]),
        one("2^60 periods")
            .window(0.0, 1.0)
            .infusion(0.0, 0, 1.0, 2.0_f64.powi(60))
            .gives(&[given(0.0, 0, 1.0, 1.0)]),
        two("whole periods beside a reset that does not stop, and one on another target")
            .infusion(6.0, 0, 20.0, 20.0)
            .reset(1.0, 0, false)
            .reset(2.0, 1, true)
            .done(5),
        one("as many pieces as the budget")
            .budget(3)
            .infusion(6.0, 0, 20.0, 20.0)
            .done(3),
    ]
}

/// Stopping resets.
fn resets() -> Vec<Fixed> {
    vec![
        one("P6")
            .infusion(6.0, 0, 10.0, 5.0)
            .with(|cycle| cycle.words.extend(encoded(&[halt(1.0, 0)])))
            .gives(&[
                given(6.0, 0, 4.0, 2.0),
                given(0.0, 0, 2.0, 1.0),
                halt(1.0, 0),
            ]),
        one("a stopping reset later in the cycle")
            .infusion(2.0, 0, 10.0, 10.0)
            .with(|cycle| cycle.words.extend(encoded(&[halt(5.0, 0)])))
            .gives(&[given(2.0, 0, 3.0, 3.0), halt(5.0, 0)]),
        one("a stopping reset at the infusion's own time")
            .infusion(2.0, 0, 12.0, 12.0)
            .with(|cycle| cycle.words.extend(encoded(&[halt(2.0, 0)])))
            .gives(&[
                given(2.0, 0, 6.0, 6.0),
                given(0.0, 0, 2.0, 2.0),
                halt(2.0, 0),
            ]),
        one("a stopping reset just after the infusion's time")
            .window(0.0, 2.0)
            .infusion(1.0, 0, 1.0, 1.0)
            .with(|cycle| cycle.words.extend(encoded(&[halt(1.0 + EPSILON, 0)])))
            .gives(&[given(1.0, 0, EPSILON, EPSILON), halt(1.0 + EPSILON, 0)]),
        one("a stopping reset just ahead of the infusion's time")
            .window(0.0, 2.0)
            .infusion(1.0, 0, 4.0, 4.0)
            .with(|cycle| cycle.words.extend(encoded(&[halt(1.0 - HALF, 0)])))
            .gives(&[
                given(1.0, 0, 1.0, 1.0),
                given(0.0, 0, 1.0, 1.0),
                halt(1.0 - HALF, 0),
            ]),
        one("a stopping reset at the infusion's end")
            .infusion(2.0, 0, 3.0, 3.0)
            .reset(5.0, 0, true)
            .done(2),
        one("a reset that does not stop")
            .infusion(6.0, 0, 10.0, 5.0)
            .reset(1.0, 0, false)
            .done(3),
        two("a stopping reset on another target")
            .infusion(6.0, 0, 10.0, 5.0)
            .reset(1.0, 1, true)
            .done(3),
        one("the earlier of two stopping resets, second in the list")
            .infusion(6.0, 0, 10.0, 5.0)
            .reset(2.0, 0, true)
            .reset(1.0, 0, true)
            .done(4),
        one("the earlier of two stopping resets, first in the list")
            .infusion(6.0, 0, 10.0, 5.0)
            .reset(1.0, 0, true)
            .reset(2.0, 0, true)
            .done(4),
        one("a stopping reset ahead of the infusion in the list")
            .reset(1.0, 0, true)
            .infusion(6.0, 0, 10.0, 5.0)
            .done(3),
        // -1 and a period of 1 is 0, where the infusion starts.
        one("a sum that is passed over")
            .window(-1.0, HALF)
            .reset(-1.0, 0, true)
            .infusion(0.0, 0, 1.0, HALF / 2.0)
            .done(2),
        one("a sum that is passed over, beside a reset that stops")
            .window(-1.0, 4.0 * HALF)
            .reset(-1.0, 0, true)
            .reset(HALF, 0, true)
            .infusion(0.0, 0, 1.0, 2.0 * HALF)
            .done(3),
        one("12 by a tail past the end, as a sum is passed over")
            .window(-1.0, HALF)
            .reset(-1.0, 0, true)
            .infusion(0.0, 0, 3.0, 3.0)
            .refused(12),
        // 1 at NaN: no later time, and the sum is none.
        one("a stopping reset at NaN still spares 18")
            .window(0.0, 1e-10)
            .infusion(0.0, 0, 1.0, 1e300)
            .reset(f64::NAN, 0, true)
            .refused(16),
        one("a stopping reset outside still forbids whole periods")
            .budget(2)
            .window(0.0, 1.0)
            .infusion(0.75, 0, 3.5, 3.5)
            .reset(5.0, 0, true)
            .refused(16),
        one("a stopping reset below the start still forbids whole periods")
            .budget(2)
            .window(0.0, 1.0)
            .infusion(0.75, 0, 3.5, 3.5)
            .reset(-0.5, 0, true)
            .refused(16),
    ]
}

/// Where start, end and period do not meet.
fn rounded() -> Vec<Fixed> {
    vec![
        one("P10: start and a period round past the end")
            .window(-9.0 * HALF / 4.0, 1.0 - HALF)
            .infusion(-9.0 * HALF / 4.0, 0, 2.0, 2.0)
            .refused(12),
        one("start and a period fall short of the end")
            .window(-1.0, HALF)
            .infusion(-1.0, 0, 1.5, 1.5)
            .gives(&[given(-1.0, 0, 1.0, 1.0), given(-1.0, 0, 0.5, 0.5)]),
        one("the head's end rounds past the end")
            .window(0.0, 1.0 + 3.0 * EPSILON)
            .infusion(1.5 * EPSILON, 0, 1.0, 1.0 + 2.0 * EPSILON)
            .refused(12),
        one("an infusion that starts just ahead of the end")
            .window(0.0, 1.0)
            .infusion(1.0 - HALF, 0, 1.0, 0.5)
            .gives(&[
                given(1.0 - HALF, 0, 2.0 * HALF, HALF),
                given(0.0, 0, 1.0, 0.5),
            ]),
        // Time and rest round to the end, and the rest is longer than the head can be.
        one("a remainder that reaches just over the end")
            .window(-2.0, 2.0)
            .infusion(1.0 + EPSILON, 0, 5.0, 5.0)
            .gives(&[
                given(-2.0, 0, 4.0, 4.0),
                given(1.0 + EPSILON, 0, 1.0 - EPSILON, 1.0 - EPSILON),
                given(-2.0, 0, EPSILON, EPSILON),
            ]),
        one("an infusion lost in its time's rounding")
            .infusion(4.0, 0, 1.0, 1e-20)
            .refused(17),
        one("the least infusion")
            .window(0.0, ulps(2))
            .infusion(ulps(1), 0, ulps(1), ulps(1))
            .gives(&[given(ulps(1), 0, ulps(1), ulps(1))]),
        one("a rate that rounds to 0")
            .window(0.0, 7.0)
            .infusion(0.0, 0, ulps(1), 1e300)
            .done(2),
        one("a rate that overflows, in pieces")
            .infusion(6.0, 0, MAX, 0.5)
            .refused(12),
    ]
}

/// One refusal at a time.
fn refused() -> Vec<Fixed> {
    let ends = [
        ("15 by a cycle of no length", 1.0, 1.0),
        ("15 by ends that fall", 1.0, 0.0),
        ("15 by a cycle from -0 to +0", -0.0, 0.0),
        ("15 by a start that is NaN", f64::NAN, 1.0),
        ("15 by a start that is infinite", f64::NEG_INFINITY, 1.0),
        ("15 by an end that is infinite", 0.0, f64::INFINITY),
        ("15 by two infinite ends", f64::INFINITY, f64::INFINITY),
        ("15 by a period that overflows", -MAX, MAX),
    ];
    let mut cases: Vec<Fixed> = ends
        .into_iter()
        .map(|(name, start, end)| one(name).window(start, end).refused(15))
        .collect();
    let infusions = [
        ("17 by a duration of 0", 1.0, 0.0),
        ("17 by a duration of -0", 1.0, -0.0),
        ("17 by a duration below 0", 1.0, -1.0),
        ("17 by a duration that is NaN", 1.0, f64::NAN),
        ("17 by a duration that is infinite", 1.0, f64::INFINITY),
        ("17 by an amount below 0", -1.0, 1.0),
        ("17 by the least amount below 0", -ulps(1), 1.0),
        ("17 by an amount that is NaN", f64::NAN, 1.0),
        ("17 by an amount that is infinite", f64::INFINITY, 1.0),
    ];
    cases.extend(
        infusions.into_iter().map(|(name, amount, duration)| {
            one(name).infusion(1.0, 0, amount, duration).refused(17)
        }),
    );
    cases.extend(vec![
        one("P7: 16 at the end").bolus(8.0, 0, 1.0).refused(16),
        one("just ahead of the end")
            .bolus(8.0_f64.next_down(), 0, 1.0)
            .done(1),
        one("16 just ahead of the start")
            .bolus(-ulps(1), 0, 1.0)
            .refused(16),
        one("16 behind the end").bolus(9.0, 0, 1.0).refused(16),
        one("16 by NaN").bolus(f64::NAN, 0, 1.0).refused(16),
        one("16 by an infinite time")
            .reset(f64::INFINITY, 0, false)
            .refused(16),
        one("16 at -0 where the end is +0")
            .window(-1.0, 0.0)
            .bolus(-0.0, 0, 1.0)
            .refused(16),
        one("17 by a stop that overflows, whatever shortens it")
            .window(0.0, 1.5e308)
            .infusion(1e308, 0, 1.0, 1e308)
            .reset(1.2e308, 0, true)
            .refused(17),
        one("18 by the quotient")
            .window(0.0, 1e-10)
            .infusion(0.0, 0, 1.0, 1e300)
            .refused(18),
        one("18 by stop less time")
            .window(-3.0 * 2.0_f64.powi(970), 0.0)
            .infusion(-3.0 * 2.0_f64.powi(970), 0, 1.0, MAX)
            .refused(18),
        one("13 by a budget of 0")
            .budget(0)
            .bolus(0.0, 0, 1.0)
            .refused(13),
        one("a budget of 0 for no event").budget(0).done(0),
        one("13 by the pieces")
            .budget(2)
            .infusion(6.0, 0, 20.0, 20.0)
            .refused(13),
        one("13 by the pieces of the last event")
            .budget(3)
            .bolus(0.0, 0, 1.0)
            .bolus(0.0, 0, 1.0)
            .infusion(6.0, 0, 10.0, 5.0)
            .refused(13),
        one("10 by rtol").with(|cycle| cycle.rtol = 0.0).refused(10),
        one("10 by atol")
            .with(|cycle| cycle.atol = f64::NAN)
            .refused(10),
        one("10 by an infinite atol")
            .with(|cycle| cycle.atol = f64::INFINITY)
            .refused(10),
        one("11 by a sample behind the end")
            .samples(&[8.0_f64.next_up()])
            .refused(11),
        one("11 by a sample ahead of the start")
            .samples(&[4.0, -ulps(1)])
            .refused(11),
        one("11 by NaN").samples(&[f64::NAN]).refused(11),
        one("12 by a target").bolus(0.0, 1, 1.0).refused(12),
        two("12 by a reset's target")
            .reset(0.0, 2, true)
            .refused(12),
        one("12 by the largest target of an infusion")
            .infusion(6.0, u64::MAX, 10.0, 5.0)
            .refused(12),
        one("12 by a bolus of NaN")
            .bolus(0.0, 0, f64::NAN)
            .refused(12),
        one("12 by a bolus below 0").bolus(0.0, 0, -1.0).refused(12),
        one("12 by a value")
            .event([RESET, 0, 0, f64::INFINITY.to_bits(), 0, 0])
            .refused(12),
        one("a value below 0")
            .event([RESET, 0, 0, (-1.0_f64).to_bits(), 0, 0])
            .done(1),
        one("P11: 12 by an order used twice, at -0 and +0")
            .window(-1.0, 1.0)
            .event([RESET, (-0.0_f64).to_bits(), 0, 0, 1, 0])
            .event([RESET, 0, 0, 0, 1, 0])
            .refused(12),
        two("12 by an order used twice, on two targets")
            .event([RESET, 0, 0, 0, 1, 0])
            .event([RESET, 0, 1, 0, 1, 1])
            .refused(12),
        one("the largest amount of whole periods")
            .window(0.0, 1.0)
            .infusion(0.0, 0, MAX, 2.0)
            .gives(&[given(0.0, 0, MAX, 1.0)]),
        one("12 by an amount of whole periods that overflows")
            .window(0.0, 0.2)
            .infusion(0.0, 0, MAX, 1.0)
            .refused(12),
        one("1 by cells that are no kernel")
            .forged(|cells| cells.truncate(20))
            .refused(1),
        one("1 by a volume of 0")
            .forged(|cells| cells[2] = 0.0)
            .refused(1),
        one("1 by a volume that is not finite")
            .forged(|cells| cells[2] = f64::INFINITY)
            .refused(1),
        one("a volume that is not in use says nothing")
            .forged(|cells| cells[3] = f64::NAN)
            .bolus(0.0, 0, 1.0)
            .done(1),
        two("1 by the second volume")
            .forged(|cells| cells[3] = -1.0)
            .refused(1),
        one("2 by a rate")
            .forged(|cells| cells[5] = f64::INFINITY)
            .refused(2),
        one("a rate outside of the n by n part says nothing")
            .forged(|cells| cells[6] = f64::NAN)
            .bolus(0.0, 0, 1.0)
            .done(1),
        one("cells behind the kernel")
            .forged(|cells| cells.push(f64::NAN))
            .bolus(0.0, 0, 1.0)
            .done(1),
        one("40 by a kind").event([3, 0, 0, 0, 0, 0]).refused(40),
        one("40 by an order")
            .event([RESET, 0, 0, 0, 65_536, 0])
            .refused(40),
        one("40 by stops").event([RESET, 0, 0, 0, 0, 2]).refused(40),
        one("40 by a word too many")
            .bolus(0.0, 0, 1.0)
            .with(|cycle| cycle.words.push(0))
            .refused(40),
    ]);
    cases
}

/// Several that fail, and the first in order is given.
fn in_order() -> Vec<Fixed> {
    let many = [f64::NAN; SAMPLES + 1];
    vec![
        one("40 ahead of 5")
            .samples(&many)
            .event([3, 0, 0, 0, 0, 0])
            .refused(40),
        one("40 ahead of an earlier event's 16")
            .bolus(9.0, 0, 1.0)
            .event([3, 0, 0, 0, 0, 0])
            .refused(40),
        one("5 ahead of 1")
            .samples(&many)
            .forged(Vec::clear)
            .refused(5),
        one("5 ahead of 15")
            .samples(&many)
            .window(1.0, 0.0)
            .refused(5),
        one("1 ahead of 15")
            .window(1.0, 0.0)
            .forged(Vec::clear)
            .refused(1),
        one("1 by a volume, ahead of 2")
            .forged(|cells| {
                cells[2] = f64::NAN;
                cells[5] = f64::NAN;
            })
            .refused(1),
        one("2 ahead of 15")
            .window(1.0, 0.0)
            .forged(|cells| cells[5] = f64::NAN)
            .refused(2),
        one("15 ahead of 13")
            .window(1.0, 0.0)
            .budget(0)
            .bolus(0.0, 0, 1.0)
            .refused(15),
        one("15 ahead of 10")
            .window(1.0, 0.0)
            .with(|cycle| cycle.rtol = 0.0)
            .refused(15),
        one("13 ahead of 16")
            .budget(0)
            .bolus(9.0, 0, 1.0)
            .refused(13),
        one("13 on the list so far, ahead of a later 16")
            .budget(2)
            .infusion(6.0, 0, 20.0, 20.0)
            .bolus(9.0, 0, 1.0)
            .refused(13),
        one("16 ahead of a later 13 on the list so far")
            .budget(2)
            .bolus(9.0, 0, 1.0)
            .infusion(6.0, 0, 20.0, 20.0)
            .refused(16),
        one("16 ahead of 10")
            .with(|cycle| cycle.rtol = 0.0)
            .bolus(9.0, 0, 1.0)
            .refused(16),
        one("16 ahead of 11")
            .samples(&[9.0])
            .bolus(9.0, 0, 1.0)
            .refused(16),
        one("16 ahead of 17 of one event")
            .infusion(9.0, 0, -1.0, -1.0)
            .refused(16),
        one("17 ahead of a later 16")
            .infusion(0.0, 0, -1.0, 1.0)
            .bolus(9.0, 0, 1.0)
            .refused(17),
        one("16 ahead of a later 17")
            .bolus(9.0, 0, 1.0)
            .infusion(0.0, 0, -1.0, 1.0)
            .refused(16),
        one("18 ahead of a later 16")
            .window(0.0, 1e-10)
            .infusion(0.0, 0, 1.0, 1e300)
            .bolus(9.0, 0, 1.0)
            .refused(18),
        one("17 whatever the target")
            .infusion(0.0, 9, f64::NAN, 1.0)
            .refused(17),
        one("17 ahead of 18")
            .window(0.0, 1e-10)
            .infusion(0.0, 0, -1.0, 1e300)
            .refused(17),
        one("18 ahead of 13 on the list so far")
            .budget(1)
            .window(0.0, 1e-10)
            .infusion(0.0, 0, 1.0, 1e300)
            .refused(18),
        one("13 on the list so far, ahead of 10")
            .budget(2)
            .with(|cycle| cycle.atol = 0.0)
            .infusion(6.0, 0, 20.0, 20.0)
            .refused(13),
        one("13 on the list so far, ahead of a later 17")
            .budget(2)
            .infusion(6.0, 0, 20.0, 20.0)
            .infusion(0.0, 0, 1.0, -1.0)
            .refused(13),
        one("10 ahead of 11")
            .with(|cycle| cycle.rtol = -1.0)
            .samples(&[9.0])
            .refused(10),
        one("11 ahead of 12")
            .samples(&[9.0])
            .bolus(0.0, 1, 1.0)
            .refused(11),
    ]
}

/// The limits, from both sides.
fn long() -> Vec<Fixed> {
    let many = |name, count: usize, duration: f64| {
        let mut case = one(name);
        for at in 0..count {
            let time = (at % 31 + 1) as f64 / 4.0;
            case = case.infusion(time, 0, 1.0 + at as f64, duration);
        }
        case
    };
    vec![
        many("64 infusions to 192 pieces", EVENTS, 15.9375).done(192),
        many(
            "64 infusions to 192 pieces, a budget of 192",
            EVENTS,
            15.9375,
        )
        .budget(192)
        .done(192),
        many(
            "64 infusions to 192 pieces, a budget of 191",
            EVENTS,
            15.9375,
        )
        .budget(191)
        .refused(13),
        many("65 infusions", EVENTS + 1, 1.0).refused(5),
        many("65 infusions, and the last is none", EVENTS + 1, 1.0)
            .with(|cycle| cycle.words[EVENT * EVENTS] = 3)
            .refused(40),
        one("256 samples")
            .samples(&[1.0; SAMPLES])
            .bolus(0.0, 0, 1.0)
            .done(1),
        one("257 samples").samples(&[1.0; SAMPLES + 1]).refused(5),
    ]
}

/// Cycles for slices of every length, and how many words those go up to.
pub fn lengths() -> Vec<(Cycle, usize)> {
    let folded = one("lengths").infusion(6.0, 0, 20.0, 20.0).cycle;
    let copied = two("lengths").bolus(6.0, 0, 20.0).bolus(1.0, 1, 1.0).cycle;
    let empty = one("lengths").cycle;
    let refused = one("lengths").bolus(1.0, 0, 1.0).samples(&[9.0]).cycle;
    let full = long().swap_remove(0).cycle;
    vec![
        (folded, 40),
        (copied, 40),
        (empty, 14),
        (refused, 26),
        (full, EVENT * 192 + 3),
    ]
}
