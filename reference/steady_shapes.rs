//! What a closed cycle's arguments and its answer have in them, so that the
//! comparison can say what its draws came to.
use crate::closed::{advances, system, Matrix};
use crate::steady_draw::pieces;
use crate::steady_entry::{Answer, Steady};

pub const ALL: [&str; 31] = [
    "an answer of 1 state",
    "an answer of 2 states",
    "an answer of 3 states",
    "an answer of 4 states",
    "an answer without events",
    "an answer with samples",
    "an answer with more pieces than events",
    "an answer of 64 events",
    "an answer without clearance",
    "an answer with an amount of -0",
    "an answer whose residuals are all 0",
    "an answer with a residual above 0",
    "an answer with a residual below 0",
    "a greatest scaled residual of 1",
    "equal pivots, and an answer",
    "rows that are exchanged, and an answer",
    "a norm above 1, and an answer",
    "a pivot less than twice the floor, and an answer",
    "33 by a pivot of 0",
    "33 by a pivot at the floor",
    "33 by a pivot above the floor of a norm of 1",
    "33 by a second pivot or a later one",
    "34 by a candidate below 0",
    "34 by a candidate that is not finite",
    "a refusal of the run from zero",
    "31 in the candidate's run",
    "22 in the candidate's run",
    "13 by the divided budget",
    "14 by the divided budget",
    "30 with a divided budget one too small",
    "a refusal at -0",
];

/// What the elimination of a system came to.
#[derive(Default)]
struct Trace {
    equal: bool,
    exchanged: bool,
    /// The pivots' magnitudes, the refused one too.
    pivots: Vec<f64>,
    norm: f64,
}

/// The elimination of document 01.
fn trace(mut a: Matrix) -> Trace {
    let n = a.len();
    let sum = |row: &Vec<f64>| row.iter().map(|v| v.abs()).sum::<f64>();
    let mut trace = Trace {
        norm: a.iter().map(sum).fold(0.0, f64::max),
        ..Trace::default()
    };
    for k in 0..n {
        let size = |i: usize| a[i][k].abs();
        let p = (k..n)
            .max_by(|i, j| size(*i).total_cmp(&size(*j)))
            .expect("rows");
        let greatest = size(p);
        trace.equal |= (k..n).filter(|i| size(*i) == greatest).count() > 1;
        trace.exchanged |= p != k;
        trace.pivots.push(greatest);
        if !greatest.is_finite() || greatest <= floor(trace.norm) {
            break;
        }
        a.swap(k, p);
        for i in k + 1..n {
            let factor = a[i][k] / a[k][k];
            for j in k + 1..n {
                a[i][j] -= factor * a[k][j];
            }
        }
    }
    trace
}

fn floor(norm: f64) -> f64 {
    64.0 * f64::EPSILON * norm.max(1.0)
}

/// The names of what a closed cycle has that passes 40, 5, 1 and 2.
pub fn shapes(given: &Steady, answer: &Answer) -> Vec<&'static str> {
    let mut found = vec![];
    let cycle = &given.cycle;
    let Ok(events) = cycle.read() else {
        return found;
    };
    let mut note = |holds: bool, name: &'static str| {
        if holds {
            found.push(name);
        }
    };
    let n = cycle.n();
    let negative_zero = |t: f64| t.to_bits() == (-0.0_f64).to_bits();
    note(
        answer.number != 0 && negative_zero(answer.time),
        "a refusal at -0",
    );
    match answer.number {
        0 => {
            let residual = &answer.residual;
            note(true, ALL[n - 1]);
            note(events.is_empty(), "an answer without events");
            note(!cycle.samples.is_empty(), "an answer with samples");
            note(
                pieces(cycle) > events.len(),
                "an answer with more pieces than events",
            );
            note(events.len() == 64, "an answer of 64 events");
            let without = cycle.rust.is_some() && cycle.given.clearance == 0.0;
            note(without, "an answer without clearance");
            note(
                answer.amounts.iter().any(|v| negative_zero(*v)),
                "an answer with an amount of -0",
            );
            note(
                residual.iter().all(|v| *v == 0.0),
                "an answer whose residuals are all 0",
            );
            note(
                residual.iter().any(|v| *v > 0.0),
                "an answer with a residual above 0",
            );
            note(
                residual.iter().any(|v| *v < 0.0),
                "an answer with a residual below 0",
            );
            note(answer.maximum == 1.0, "a greatest scaled residual of 1");
            let (system, _) = system(cycle).expect("a system");
            let trace = trace(system);
            note(trace.equal, "equal pivots, and an answer");
            note(trace.exchanged, "rows that are exchanged, and an answer");
            note(trace.norm > 1.0, "a norm above 1, and an answer");
            let least = trace.pivots.iter().copied().fold(f64::MAX, f64::min);
            note(
                least <= 2.0 * floor(trace.norm),
                "a pivot less than twice the floor, and an answer",
            );
        }
        33 => {
            let (system, _) = system(cycle).expect("a system");
            let trace = trace(system);
            let last = *trace.pivots.last().expect("a pivot");
            note(last == 0.0, "33 by a pivot of 0");
            note(last == floor(trace.norm), "33 by a pivot at the floor");
            note(
                last > floor(1.0) && last < floor(trace.norm),
                "33 by a pivot above the floor of a norm of 1",
            );
            note(
                trace.pivots.len() > 1,
                "33 by a second pivot or a later one",
            );
        }
        34 => {
            let (system, b) = system(cycle).expect("a system");
            let candidate = crate::closed::solve(system, b, crate::closed::Reading::Right);
            let candidate = candidate.expect("a candidate");
            note(
                candidate.iter().all(|v| v.is_finite()),
                "34 by a candidate below 0",
            );
            note(
                candidate.iter().any(|v| !v.is_finite()),
                "34 by a candidate that is not finite",
            );
        }
        20..=22 | 31 | 32 => {
            let begins = advances(cycle).is_some();
            note(!begins, "a refusal of the run from zero");
            note(begins && answer.number == 31, "31 in the candidate's run");
            note(begins && answer.number == 22, "22 in the candidate's run");
        }
        13 => note(cycle.answer().number == 0, "13 by the divided budget"),
        14 => note(true, "14 by the divided budget"),
        30 => {
            let edge = advances(cycle).map(|advances| advances * (n as u64 + 2));
            note(
                edge == Some(cycle.propagations + 1),
                "30 with a divided budget one too small",
            );
        }
        _ => {}
    }
    found
}
