//! Fixed sheets for the closed cycle: the bench values of document 01 that it
//! has, and inputs that tell its readings apart, with the number that each must
//! have; and closed cycles with a kernel that `new` did not make.
use crate::cycle_entry::{made_cycle, Cycle};
use crate::draw::{Parameters, TWO_59};
use crate::rust_run::{BOLUS, INFUSION, RESET};
use crate::sheet::{Bodies, EVENTS, SAMPLES, WORDS};
use crate::sheet_draw::{bytes, packed};
use crate::sheet_fixed::{raw, still, Fixed};
use crate::steady_entry::Steady;

const MAX: f64 = f64::MAX;
const NAN: u64 = 0x7ff4_0000_0000_00aa;
/// 2^-53: the floor of a pivot is 128 of these.
const HALF: f64 = f64::EPSILON / 2.0;

/// Places in the window's body.
const RTOL: usize = 2;
const PROPAGATIONS: usize = 4;
const EVENT_BUDGET: usize = 5;
const OUTPUT_BUDGET: usize = 6;
const ABSOLUTE: usize = 7;
const RELATIVE: usize = 8;

/// A model, a window from 0, tolerances 1 and ample budgets.
fn model(clearance: f64, volumes: &[f64], exchange: &[f64], absorption: Option<f64>) -> Bodies {
    let mut words = vec![
        clearance.to_bits(),
        u64::from(absorption.is_some()),
        absorption.unwrap_or(f64::NAN).to_bits(),
        volumes.len() as u64,
    ];
    words.extend(volumes.iter().chain(exchange).map(|v| v.to_bits()));
    let mut bodies = still();
    bodies.model = words;
    bodies.amounts.clear();
    bodies
        .set(PROPAGATIONS, 1000)
        .set(EVENT_BUDGET, 1200)
        .set(OUTPUT_BUDGET, 100_000)
}

/// One state that loses its amount, over a cycle from 0 to 1.
fn one() -> Bodies {
    model(1.0, &[1.0], &[], None)
}

/// A depot and central.
fn oral() -> Bodies {
    model(1.0, &[2.0], &[], Some(0.5))
}

fn two() -> Bodies {
    model(1.5, &[2.0, 4.0], &[0.7], None)
}

impl Bodies {
    fn end(self, end: f64) -> Bodies {
        self.window(0.0, end)
    }
    fn tolerance(self, absolute: f64, relative: f64) -> Bodies {
        self.set(ABSOLUTE, absolute.to_bits())
            .set(RELATIVE, relative.to_bits())
    }
    fn budgets(self, propagations: u64, events: u64, outputs: u64) -> Bodies {
        self.set(PROPAGATIONS, propagations)
            .set(EVENT_BUDGET, events)
            .set(OUTPUT_BUDGET, outputs)
    }
}

pub fn sheets() -> Vec<Fixed> {
    let mut all = answers();
    all.extend(elimination());
    all.extend(residuals());
    all.extend(budgets());
    all.extend(refusals());
    all.extend(in_order());
    all.extend(long());
    all
}

/// Amounts and residuals.
fn answers() -> Vec<Fixed> {
    vec![
        one().prints(
            "no dose",
            "0000000000000000 0000000000000000\nmax 0000000000000000\n",
        ),
        // 1 / (e - 1).
        one().bolus(0.0, 0, 1.0).prints(
            "a bolus into one state",
            "3fe29f8d9d61337a 0000000000000000\nmax 0000000000000000\n",
        ),
        still().refused("P9", 33, "refused 33 0000000000000000\n"),
        // A state that is reset keeps nothing of its amount.
        still().reset(0.5, 0, 3.0, 0, 0).prints(
            "a reset in the place of clearance",
            "4008000000000000 0000000000000000\nmax 0000000000000000\n",
        ),
        oral()
            .end(8.0)
            .bolus(0.0, 0, 100.0)
            .gives("a bolus into the depot", 0),
        two()
            .end(8.0)
            .infusion(6.0, 0, 10.0, 5.0)
            .gives("an infusion over the end of the cycle", 0),
        two()
            .end(8.0)
            .infusion(6.0, 1, 20.0, 20.0)
            .gives("an infusion of more than two periods", 0),
        two()
            .end(8.0)
            .infusion(6.0, 0, 10.0, 5.0)
            .reset(1.0, 0, 2.0, 0, 1)
            .gives("an infusion that a reset stops in the next cycle", 0),
        two()
            .end(3.0)
            .bolus(1.5, 0, 7.0)
            .infusion(0.5, 1, 3.0, 2.0)
            .reset(2.0, 1, 1.0, 0, 0)
            .gives("unit runs have no dose, and their resets go to 0", 0),
        model(0.5, &[7.0], &[], None)
            .end(3.0)
            .bolus(1.5, 0, 1.0)
            .gives("unit runs stop at every event", 0),
        model(0.7, &[3.0], &[], None)
            .end(4.0)
            .bolus(0.0, 0, 7.0)
            .gives("columns are those of the zeroed list", 0),
        model(4.2, &[12.0, 25.5, 7.25], &[3.5, 1.75], Some(0.9))
            .end(24.0)
            .bolus(0.0, 0, 100.0)
            .infusion(4.0, 1, 40.0, 10.0)
            .samples(&[6.0, 24.0])
            .gives("four states", 0),
        model(0.0, &[3.0, 18.0], &[4.0], None)
            .end(8_388_608.0)
            .prints(
                "a candidate of -0",
                "8000000000000000 0000000000000000\n\
                 8000000000000000 0000000000000000\n\
                 max 0000000000000000\n",
            ),
        one()
            .with(|bodies| bodies.amounts = vec![NAN; 7])
            .bolus(0.0, 0, 1.0)
            .gives("amounts of any count and kind", 0),
        // With these the run would be refused by 31.
        one()
            .amounts(&[MAX])
            .bolus(0.0, 0, MAX / 4.0)
            .gives("amounts are passed over", 0),
        one()
            .with(|bodies| bodies.amounts.clear())
            .gives("no amount", 0),
        one()
            .event([BOLUS, 0, 0, 1.0_f64.to_bits(), NAN, u64::MAX])
            .event([INFUSION, 0, 0, 0, 1.0_f64.to_bits(), 2])
            .gives("words that kinds lack", 0),
        one()
            .window(-0.0, 1.0)
            .bolus(0.0, 0, 1.0)
            .gives("a cycle from -0", 0),
        one().bolus(1.0, 0, 1.0).refused(
            "P7: 16 by a bolus at the end",
            16,
            "refused 16 0000000000000000\n",
        ),
        one()
            .end(0.1)
            .infusion(0.0, 0, 0.5, 0.5)
            .gives("a quotient that rounds up", 0),
    ]
}

/// The system, its pivots and its solution.
fn elimination() -> Vec<Fixed> {
    let leak = |units: f64| model(units * HALF, &[1.0], &[], None);
    vec![
        // Two squarings leave the pivot in steps of 4.
        leak(124.0).gives("a pivot just below the floor", 33),
        leak(128.0).gives("a pivot at the floor", 33),
        leak(132.0).gives("a pivot just above the floor", 0),
        leak(252.0).gives("a pivot below twice the floor", 0),
        leak(68.0).gives("a pivot above half the floor", 33),
        model(0.0, &[2.0, 2.0], &[0.7], Some(5.0))
            .end(3.0)
            .gives("a floor with the norm of the system", 33),
        model(0.0, &[7.0, 1.0], &[5.0], None)
            .end(3.0)
            .gives("a floor with the norm by rows", 0),
        model(0.0, &[4.0, 2.0], &[4.0], None).gives("a second pivot below the floor", 33),
        model(0.0, &[14.0, 3.0], &[8.0], None)
            .end(32.0)
            .bolus(0.0, 0, 1.0)
            .gives("no clearance, and rounding gives 34", 34),
        model(0.0, &[5.0, 18.0], &[4.0], None)
            .end(2.0_f64.powi(36))
            .gives("no clearance, and rounding gives an answer", 0),
        // Two of equal magnitude in the first column.
        model(0.0, &[1.0], &[], Some(0.3))
            .end(4.0)
            .reset(0.0, 1, 2.0, 0, 0)
            .bolus(1.0, 0, 1.0)
            .gives("a pivot tie", 0),
        model(0.0, &[14.0], &[], Some(0.7))
            .end(3.0)
            .reset(0.0, 1, 1.0, 0, 1)
            .gives("a pivot tie without doses", 0),
        model(0.0, &[3.0, 0.5], &[3.0], None)
            .end(8.0)
            .gives("rows that are exchanged", 0),
        model(1.0, &[4.0, 1.0], &[1.0], None)
            .bolus(0.5, 1, 3.0)
            .gives("columns are not rows", 0),
        model(1.0, &[1.0], &[], Some(0.1))
            .bolus(0.0, 0, 2.0)
            .gives("the factor first", 0),
        model(0.7, &[5.0, 10.0, 3.0], &[5.0, 0.1], None)
            .bolus(0.5, 1, 1.0)
            .gives("the sum first in back substitution", 0),
        model(2.0, &[2.0], &[], None)
            .bolus(0.0, 0, 10.0)
            .gives("a quotient by the pivot", 0),
        model(2.0, &[3.0, 5.0, 7.0], &[1.0, 0.3], Some(0.9))
            .end(8.0)
            .bolus(0.0, 0, 10.0)
            .bolus(3.0, 2, 7.0)
            .infusion(5.0, 3, 3.0, 2.0)
            .gives("products that are rounded", 0),
        one().bolus(0.0, 0, MAX).clearance(1e-3).refused(
            "34 by a candidate that is not finite",
            34,
            "refused 34 0000000000000000\n",
        ),
        model(0.0, &[5.0, 1.0], &[5.0], None)
            .end(24.0)
            .bolus(6.0, 1, 1.0)
            .gives("34 by a candidate below 0", 34),
    ]
}

/// Residuals, their scale and their limit.
fn residuals() -> Vec<Fixed> {
    let day = || model(0.1, &[3.0], &[], None).end(3.0).bolus(1.5, 0, 7.0);
    // Its residual is 2^-53.
    let own = || one().bolus(0.5, 0, 1.0);
    vec![
        own().tolerance(HALF, 0.0).prints(
            "a scaled residual of exactly 1",
            "3feeb45dc88defdc 3ca0000000000000\nmax 3ff0000000000000\n",
        ),
        own().tolerance(HALF.next_down(), 0.0).refused(
            "a scaled residual just above 1",
            36,
            "refused 36 0000000000000000\n",
        ),
        own()
            .tolerance(f64::from_bits(1), 0.0)
            .gives("36 by a scaled residual that is not finite", 36),
        day()
            .tolerance(1e-9, 1.0)
            .gives("a scale by the larger of start and end", 0),
        model(3.0, &[7.0], &[], None)
            .end(2.0)
            .bolus(0.5, 0, 1.0)
            .gives("a scale by the larger, the other way round", 0),
        model(1.0, &[14.0], &[], Some(0.5))
            .end(4.0)
            .bolus(2.0, 0, 7.0)
            .gives("a scale for each state", 0),
        model(0.7, &[7.0], &[], Some(2.0))
            .end(2.0)
            .bolus(0.5, 0, 7.0)
            .tolerance(1e-9, 0.0)
            .gives("the greatest is not the last", 0),
        model(2.0, &[2.0], &[], Some(0.5))
            .end(2.0)
            .bolus(1.5, 0, 2.0)
            .tolerance(1e-6, 1.0)
            .gives("the greatest is not the sum", 0),
        model(0.0, &[18.0, 3.0], &[5.0], None)
            .end(8.0)
            .bolus(0.0, 0, 0.1)
            .tolerance(1e-6, 0.0)
            .gives("36 where no clearance leaves a residual", 36),
        model(0.7, &[7.0], &[], Some(2.0))
            .end(2.0)
            .bolus(0.5, 0, 7.0)
            .tolerance(1e-20, 0.0)
            .gives("36 by the first state, where the last has no residual", 36),
        own().bolus(0.0, 0, 4.0).tolerance(1.0, MAX).refused(
            "35",
            35,
            "refused 35 0000000000000000\n",
        ),
        own().tolerance(MAX, MAX).gives("35 by the sum", 35),
        own().tolerance(MAX, 1.0).gives("the largest absolute", 0),
        oral()
            .end(8.0)
            .bolus(0.0, 1, 100.0)
            .tolerance(1.0, MAX)
            .gives("35 by the second state", 35),
        own().tolerance(1.0, 0.0).gives("a relative of 0", 0),
        own().tolerance(1.0, -0.0).gives("a relative of -0", 0),
        own()
            .tolerance(f64::from_bits(1), 1.0)
            .gives("the least absolute", 0),
    ]
}

/// Budgets at their edge: n + 2 runs share each.
fn budgets() -> Vec<Fixed> {
    let own = || one().bolus(0.5, 0, 1.0);
    let four = || model(4.2, &[12.0, 25.5, 7.25], &[3.5, 1.75], Some(0.9)).bolus(0.5, 0, 1.0);
    vec![
        // One event, two advances, 4 + 2 values of each state.
        own().budgets(6, 3, 18).gives("budgets just enough", 0),
        own().budgets(5, 3, 18).refused(
            "30: propagations one too few",
            30,
            "refused 30 3ff0000000000000\n",
        ),
        own()
            .budgets(6, 2, 18)
            .gives("13: an event too few, though the fold takes it", 13),
        own().budgets(6, 3, 17).gives("14: a value too few", 14),
        own().budgets(4, 3, 18).gives("30: budgets over n + 1", 30),
        own()
            .budgets(2, 3, 18)
            .refused("30 at the first row", 30, "refused 30 3fe0000000000000\n"),
        four()
            .budgets(12, 6, 144)
            .gives("budgets just enough for four states", 0),
        four()
            .budgets(11, 6, 144)
            .gives("30: propagations one too few for four states", 30),
        four()
            .budgets(12, 5, 144)
            .gives("13: an event too few for four states", 13),
        four()
            .budgets(12, 6, 143)
            .gives("14: a value too few for four states", 14),
        own()
            .samples(&[0.25, 0.75, 0.25])
            .budgets(6, 3, 18)
            .gives("samples take no advance and no value", 0),
        one()
            .end(8.0)
            .infusion(6.0, 0, 20.0, 20.0)
            .budgets(1000, 9, 42)
            .gives("budgets for three pieces", 0),
        one()
            .end(8.0)
            .infusion(6.0, 0, 20.0, 20.0)
            .budgets(1000, 8, 42)
            .gives("13: two pieces are in the budget", 13),
        one()
            .end(8.0)
            .infusion(6.0, 0, 20.0, 20.0)
            .budgets(1000, 2, 42)
            .gives("13 of the fold", 13),
        own()
            .budgets(0, 3, 18)
            .gives("a propagation word of 0 is no budget of 0", 0),
        own()
            .budgets(u64::MAX, u64::MAX, u64::MAX)
            .gives("the largest budgets", 0),
        still()
            .set(PROPAGATIONS, 2)
            .gives("30 ahead of 33: each run has its own", 30),
    ]
}

/// One refusal at a time.
fn refusals() -> Vec<Fixed> {
    let tolerances = [
        ("19 by an absolute of 0", 0.0, 1.0),
        ("19 by an absolute of -0", -0.0, 1.0),
        ("19 by an absolute below 0", -1.0, 1.0),
        ("19 by an absolute that is NaN", f64::NAN, 1.0),
        ("19 by an infinite absolute", f64::INFINITY, 1.0),
        ("19 by a relative below 0", 1.0, -f64::from_bits(1)),
        ("19 by a relative that is NaN", 1.0, f64::NAN),
        ("19 by an infinite relative", 1.0, f64::INFINITY),
    ];
    let mut all: Vec<Fixed> = tolerances
        .into_iter()
        .map(|(name, absolute, relative)| {
            let text = "refused 19 0000000000000000\n";
            one().tolerance(absolute, relative).refused(name, 19, text)
        })
        .collect();
    all.extend(vec![
        one()
            .samples(&[0.0; SAMPLES + 1])
            .gives("5 by 257 samples", 5),
        one().clearance(-1.0).gives("1", 1),
        one()
            .clearance(MAX)
            .with(|bodies| bodies.model[4] = 0.5_f64.to_bits())
            .gives("2", 2),
        one().set(RTOL, 0).gives("10 by rtol", 10),
        one()
            .samples(&[1.5])
            .gives("11 by a sample that is cleared later", 11),
        one()
            .samples(&[f64::NAN])
            .gives("11 by a sample that is NaN", 11),
        one().bolus(0.0, 1, 1.0).gives("12 by a target", 12),
        one()
            .window(-9.0 * HALF / 4.0, 1.0 - HALF)
            .infusion(-9.0 * HALF / 4.0, 0, 2.0, 2.0)
            .gives("P10: 12 by a period that rounds past the end", 12),
        one()
            .reset(-0.0, 0, 1.0, 1, 0)
            .reset(0.0, 0, 1.0, 1, 0)
            .gives("P11: 12 by an order used twice", 12),
        one().window(1.0, 0.0).gives("15 by ends that fall", 15),
        one()
            .window(-MAX, MAX)
            .gives("15 by a period that overflows", 15),
        one().bolus(-0.5, 0, 1.0).gives("16", 16),
        one().infusion(0.0, 0, -1.0, 1.0).gives("17", 17),
        one()
            .end(1e-10)
            .infusion(0.0, 0, 1.0, 1e300)
            .gives("18", 18),
        one()
            .clearance(1e308)
            .end(10.0)
            .refused("20", 20, "refused 20 4024000000000000\n"),
        one().clearance(TWO_59).gives("60 halvings", 0),
        one()
            .clearance(TWO_59 + 128.0)
            .refused("21", 21, "refused 21 3ff0000000000000\n"),
        still()
            .end(4.0)
            .infusion(0.0, 0, MAX, 4.0)
            .infusion(0.0, 0, MAX, 4.0)
            .refused(
                "22 in the run from zero",
                22,
                "refused 22 4010000000000000\n",
            ),
        one().window(-1.0, 1.0).reset(-0.0, 0, -1.0, 0, 0).refused(
            "31 at -0 in the run from zero",
            31,
            "refused 31 8000000000000000\n",
        ),
        one().bolus(0.5, 0, MAX).bolus(0.5, 0, MAX).refused(
            "31 by two boluses",
            31,
            "refused 31 3fe0000000000000\n",
        ),
        one().clearance(0.7).bolus(0.0, 0, MAX).refused(
            "31 at the start of the candidate's run",
            31,
            "refused 31 0000000000000000\n",
        ),
        one().clearance(0.7).end(3.0).bolus(1.5, 0, MAX).refused(
            "31 inside the candidate's run",
            31,
            "refused 31 3ff8000000000000\n",
        ),
        one()
            .clearance(0.5)
            .end(2.0)
            .infusion(0.0, 0, MAX, 1.0)
            .refused(
                "22 in the candidate's run",
                22,
                "refused 22 3ff0000000000000\n",
            ),
        one()
            .window(-2.0, 1.0)
            .infusion(-1.0, 0, MAX, 1.0)
            .infusion(-1.0, 0, MAX, 1.0)
            .refused("32 has time +0", 32, "refused 32 0000000000000000\n"),
        one().event([3, 0, 0, 0, 0, 0]).gives("40 by a kind", 40),
        one()
            .reset(0.0, 0, 1.0, 65_536, 0)
            .gives("40 by an order", 40),
        one()
            .with(|bodies| bodies.window.truncate(7))
            .gives("40 by a window of seven words", 40),
        one()
            .with(|bodies| bodies.events.push(0))
            .gives("40 by an event of one word", 40),
    ]);
    all
}

/// Several that fail, and the first in order is given.
fn in_order() -> Vec<Fixed> {
    let many = [0.0; SAMPLES + 1];
    let unfit = || one().tolerance(f64::NAN, f64::NAN);
    vec![
        unfit()
            .samples(&many)
            .event([3, 0, 0, 0, 0, 0])
            .gives("40 ahead of 5 and 19", 40),
        unfit().samples(&many).gives("5 ahead of 19", 5),
        one()
            .samples(&many)
            .clearance(-1.0)
            .gives("5 ahead of 1", 5),
        unfit().clearance(-1.0).gives("1 ahead of 19", 1),
        unfit()
            .clearance(MAX)
            .with(|bodies| bodies.model[4] = 0.5_f64.to_bits())
            .gives("2 ahead of 19", 2),
        unfit().window(1.0, 0.0).gives("19 ahead of 15", 19),
        unfit()
            .bolus(0.0, 0, 1.0)
            .set(EVENT_BUDGET, 0)
            .gives("19 ahead of 13", 19),
        unfit().bolus(9.0, 0, 1.0).gives("19 ahead of 16", 19),
        unfit().set(RTOL, 0).gives("19 ahead of 10", 19),
        unfit().samples(&[2.0]).gives("19 ahead of 11", 19),
        unfit().bolus(0.0, 1, 1.0).gives("19 ahead of 12", 19),
        unfit().clearance(0.0).gives("19 ahead of 33", 19),
        one()
            .bolus(9.0, 0, 1.0)
            .budgets(1000, 2, 18)
            .gives("16 ahead of 13 of the divided budget", 16),
        one()
            .samples(&[2.0])
            .bolus(0.0, 0, 1.0)
            .budgets(1000, 2, 18)
            .gives("11 ahead of 13 of the divided budget", 11),
        one()
            .bolus(0.0, 0, 1.0)
            .budgets(1000, 2, 2)
            .gives("13 ahead of 14 of the divided budgets", 13),
        one()
            .bolus(0.0, 0, 1.0)
            .budgets(1, 3, 17)
            .gives("14 ahead of 30", 14),
        one().reset(0.0, 0, -1.0, 0, 0).budgets(2, 3, 18).refused(
            "31 of the run from zero, ahead of 30",
            31,
            "refused 31 0000000000000000\n",
        ),
        still()
            .bolus(0.5, 0, MAX)
            .bolus(0.5, 0, MAX)
            .gives("31 ahead of 33", 31),
    ]
}

/// The longest lists, and the limits from both sides.
fn long() -> Vec<Fixed> {
    let many = |bodies: Bodies, count: usize, duration: f64| {
        let states = bodies.model[1] + bodies.model[3];
        let mut bodies = bodies.end(8.0).tolerance(1e-6, 1e-6);
        for at in 0..count {
            let time = (1 + at) as f64 / 16.0;
            let target = at as u64 % states;
            bodies = bodies.infusion(time, target, 1.0 + at as f64, duration);
        }
        bodies
    };
    let bolus = one().bolus(0.5, 0, 1.0);
    let words_to = |total: usize| {
        one().with(|bodies| {
            let more = total - packed(bodies).len();
            bodies.amounts.resize(more, 0);
        })
    };
    let longer = |bodies: &Bodies| {
        let mut all = bytes(&packed(bodies));
        all.push(0);
        all
    };
    vec![
        many(one(), EVENTS, 15.96875).gives("64 infusions in 192 pieces", 0),
        many(one(), EVENTS, 15.96875)
            .set(PROPAGATIONS, 0)
            .gives("64 infusions, a propagation word of 0", 0),
        many(one(), EVENTS + 1, 1.0).gives("65 infusions", 5),
        many(
            model(4.2, &[12.0, 25.5, 7.25], &[3.5, 1.75], Some(0.9)),
            EVENTS,
            15.96875,
        )
        .set(PROPAGATIONS, 0)
        .gives("64 infusions for four states, a propagation word of 0", 0),
        many(one(), EVENTS, 15.96875)
            .set(EVENT_BUDGET, 575)
            .gives("64 infusions, 13 of the divided budget", 13),
        many(one(), EVENTS, 15.96875)
            .set(EVENT_BUDGET, 576)
            .gives("64 infusions, an event budget just enough", 0),
        bolus
            .clone()
            .samples(&[0.25; SAMPLES])
            .gives("256 samples", 0),
        words_to(WORDS).gives("8,192 words", 0),
        words_to(WORDS + 1).gives("8,193 words", 40),
        raw("a byte behind 8,192 words", longer(&words_to(WORDS)), 40),
        raw("a byte behind the end", longer(&bolus), 40),
    ]
}

/// Closed cycles with a kernel that `new` did not make: rates between all
/// states. The sum of back substitution then has three terms.
pub fn forged() -> Vec<(&'static str, Steady)> {
    let given = Parameters {
        clearance: 1.0,
        volumes: vec![1.0; 3],
        exchange: vec![0.0; 2],
        depot: true,
        absorption: 1.0,
    };
    let mut cycle = made_cycle(&given).expect("a kernel");
    for i in 0..4 {
        for j in 0..4 {
            let rate = if i == j {
                -2.0 - i as f64 / 4.0
            } else {
                (1.0 + i as f64 + 2.0 * j as f64) / 16.0
            };
            cycle.cells[5 + 4 * i + j] = rate;
        }
    }
    let dense = |time: f64, target: u64, amount: f64| {
        let mut words = [BOLUS, time.to_bits(), target, amount.to_bits(), 0, 0].to_vec();
        words.extend([RESET, 0.75_f64.to_bits(), 3, 0.5_f64.to_bits(), 0, 0]);
        Steady {
            cycle: Cycle {
                rust: None,
                propagations: 1000,
                event_budget: 1000,
                output_budget: 10_000,
                words,
                ..cycle.clone()
            },
            absolute: 1e-9,
            relative: 1e-9,
        }
    };
    vec![
        ("rates between all states", dense(0.5, 0, 1.0)),
        (
            "rates between all states, 7 into the second",
            dense(0.25, 1, 7.0),
        ),
        (
            "rates between all states, 3 into the third",
            dense(0.125, 2, 3.0),
        ),
        (
            "rates between all states, 0.1 into the last",
            dense(0.0, 3, 0.1),
        ),
    ]
}
