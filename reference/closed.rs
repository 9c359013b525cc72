//! Document 01's closed cycle, written out plainly over the Rust's runs, and its
//! wrong readings. Two uses: the answers for kernels that the Rust cannot hold,
//! and stand-ins that the comparison must catch. Answers of the Rust are held to
//! the right one.
use crate::cycle_entry::Cycle;
use crate::fold::{self, folded};
use crate::run_entry::{Room, Run};
use crate::rust_cycle::encoded;
use crate::sheet_run::Refusal;
use qspquest_modeling::Event;
use std::cell::Cell;
use Reading::*;

#[derive(Clone, Copy, Debug, PartialEq)]
pub enum Reading {
    Right,
    // Ahead of the runs.
    AbsoluteOf0,
    RelativeAbove0,
    SignOfRelative,
    NoTolerances,
    InfiniteTolerances,
    TolerancesBehindFold,
    TolerancesLast,
    NoFold,
    FoldOnDivided,
    SamplesClearedFirst,
    SamplesKept,
    SamplesIn14,
    ByStatesAndOne,
    ByStates,
    Undivided,
    PropagationsUndivided,
    EventsUndivided,
    OutputsUndivided,
    DividedUp,
    PropagationsShared,
    NoSecondPreparation,
    // The runs.
    UnitsWithDoses,
    UnitsWithBoluses,
    UnitsWithInfusions,
    ResetsKept,
    UnitsWithoutEvents,
    UnitsWithoutDoses,
    ColumnsByDifference,
    RightSideZeroed,
    UnitsFirst,
    // The system.
    NotNegated,
    Transposed,
    // Elimination.
    FirstOfEquals,
    NoPivoting,
    PivotByValue,
    RightNotExchanged,
    NormAfter,
    NormByColumns,
    NormOfEntries,
    NoNorm,
    NormAlone,
    HalfTheFloor,
    TwiceTheFloor,
    AtTheFloor,
    NoFloor,
    FirstPivotOnly,
    FactorLast,
    PivotRowDivided,
    Fused,
    Successive,
    Falling,
    Reciprocal,
    // The candidate.
    Below0Accepted,
    SignOf0,
    Clamped,
    InfiniteAccepted,
    // Residuals.
    EndByMatrix,
    EndOfTheFirstRun,
    EndOfTheLastUnit,
    StartLessEnd,
    Magnitudes,
    ScaledResiduals,
    EndAmounts,
    ScaleByStart,
    ScaleByEnd,
    ScaleOfTheSmaller,
    ScaleOfTheLarger,
    ScaleOfAllStates,
    NoScale,
    ScaleIs36,
    NoLimit,
    Below1,
    LimitOfTheLast,
    LastMaximum,
    SummedMaximum,
    UnscaledMaximum,
    // Times.
    NoTimes,
    CandidateWithoutTime,
}

/// Each wrong reading, with its name.
pub const WRONG: &[(&str, Reading)] = &[
    ("absolute may be 0", AbsoluteOf0),
    ("relative must be above 0", RelativeAbove0),
    ("a relative of -0 is below 0", SignOfRelative),
    ("tolerances are not looked at", NoTolerances),
    ("infinite tolerances are taken", InfiniteTolerances),
    ("19 behind the fold", TolerancesBehindFold),
    ("19 behind the candidate's run", TolerancesLast),
    ("the list is not folded", NoFold),
    ("the fold has the divided budgets", FoldOnDivided),
    ("samples are cleared ahead of the fold", SamplesClearedFirst),
    ("samples are kept in the runs", SamplesKept),
    ("samples count in 14", SamplesIn14),
    ("budgets divided by n + 1", ByStatesAndOne),
    ("budgets divided by n", ByStates),
    ("budgets are not divided", Undivided),
    ("propagations are not divided", PropagationsUndivided),
    ("the event budget is not divided", EventsUndivided),
    ("the output budget is not divided", OutputsUndivided),
    ("budgets divided and rounded up", DividedUp),
    ("all runs share their propagations", PropagationsShared),
    ("no 13 and 14 behind the fold", NoSecondPreparation),
    ("unit runs with doses", UnitsWithDoses),
    ("unit runs with boluses", UnitsWithBoluses),
    ("unit runs with infusions", UnitsWithInfusions),
    ("unit runs with the resets' values", ResetsKept),
    ("unit runs without events", UnitsWithoutEvents),
    ("unit runs with resets alone", UnitsWithoutDoses),
    ("columns less the run from zero", ColumnsByDifference),
    ("the right side of the zeroed list", RightSideZeroed),
    ("unit runs ahead of the run from zero", UnitsFirst),
    ("columns not negated off the diagonal", NotNegated),
    ("rows in the place of columns", Transposed),
    ("the first row on a pivot tie", FirstOfEquals),
    ("no pivoting", NoPivoting),
    ("the pivot by value", PivotByValue),
    ("the right side is not exchanged", RightNotExchanged),
    ("the norm of what is left to eliminate", NormAfter),
    ("the norm by columns", NormByColumns),
    ("the largest entry as norm", NormOfEntries),
    ("the floor without the norm", NoNorm),
    ("the floor with the norm alone", NormAlone),
    ("half the floor", HalfTheFloor),
    ("twice the floor", TwiceTheFloor),
    ("a pivot at the floor is taken", AtTheFloor),
    ("no floor but 0", NoFloor),
    ("the floor for the first pivot alone", FirstPivotOnly),
    ("products ahead of the quotient", FactorLast),
    ("the pivot's row divided", PivotRowDivided),
    ("fused products", Fused),
    ("successive subtractions", Successive),
    ("back substitution over falling j", Falling),
    ("times the reciprocal", Reciprocal),
    ("amounts below 0 are taken", Below0Accepted),
    ("an amount of -0 is below 0", SignOf0),
    ("amounts below 0 are 0", Clamped),
    ("amounts that are not finite are taken", InfiniteAccepted),
    ("the end by columns and right side", EndByMatrix),
    ("residuals of the run from zero", EndOfTheFirstRun),
    ("residuals of the last unit run", EndOfTheLastUnit),
    ("start less end", StartLessEnd),
    ("magnitudes of residuals", Magnitudes),
    ("scaled residuals", ScaledResiduals),
    ("amounts of the end", EndAmounts),
    ("the scale by the start", ScaleByStart),
    ("the scale by the end", ScaleByEnd),
    ("the scale by the smaller", ScaleOfTheSmaller),
    ("the larger of absolute and relative", ScaleOfTheLarger),
    ("one scale for all states", ScaleOfAllStates),
    ("no 35", NoScale),
    ("36 in the place of 35", ScaleIs36),
    ("no 36", NoLimit),
    ("a scaled residual of 1 is refused", Below1),
    ("36 of the last state alone", LimitOfTheLast),
    ("the last scaled residual as greatest", LastMaximum),
    ("the sum of scaled residuals", SummedMaximum),
    ("the greatest residual, not scaled", UnscaledMaximum),
    ("refusals of runs at +0", NoTimes),
    (
        "refusals of the candidate's run at +0",
        CandidateWithoutTime,
    ),
];

/// The answer of a closed cycle.
#[derive(Clone, Debug)]
pub struct Solved {
    pub amounts: Vec<f64>,
    pub residual: Vec<f64>,
    pub maximum: f64,
}

pub type Matrix = Vec<Vec<f64>>;

fn larger(x: f64, y: f64) -> f64 {
    if y > x {
        y
    } else {
        x
    }
}

fn row_norm(a: &Matrix) -> f64 {
    let sum = |row: &Vec<f64>| row.iter().fold(-0.0, |sum, v| sum + v.abs());
    a.iter().map(sum).fold(0.0, larger)
}

fn norm(a: &Matrix, reading: Reading) -> f64 {
    match reading {
        NormByColumns => {
            let column = |j: usize| a.iter().fold(-0.0, |sum, row| sum + row[j].abs());
            (0..a.len()).map(column).fold(0.0, larger)
        }
        NormOfEntries => a.iter().flatten().map(|v| v.abs()).fold(0.0, larger),
        _ => row_norm(a),
    }
}

fn least(norm: f64, reading: Reading) -> f64 {
    let unit = 64.0 * f64::EPSILON;
    match reading {
        NoNorm => unit,
        NormAlone => unit * norm,
        HalfTheFloor => 0.5 * unit * larger(norm, 1.0),
        TwiceTheFloor => 2.0 * unit * larger(norm, 1.0),
        NoFloor => 0.0,
        _ => unit * larger(norm, 1.0),
    }
}

/// The row of the pivot in column k.
fn pivot(a: &Matrix, k: usize, reading: Reading) -> usize {
    let mut best = k;
    for i in k + 1..a.len() {
        let (x, y) = (a[best][k], a[i][k]);
        let order = y.abs().total_cmp(&x.abs());
        let taken = match reading {
            FirstOfEquals => order.is_gt(),
            NoPivoting => false,
            PivotByValue => y.total_cmp(&x).is_ge(),
            _ => order.is_ge(),
        };
        if taken {
            best = i;
        }
    }
    best
}

/// The solution, or 33.
pub fn solve(mut a: Matrix, mut b: Vec<f64>, reading: Reading) -> Result<Vec<f64>, u64> {
    let n = b.len();
    let mut floor = least(norm(&a, reading), reading);
    for k in 0..n {
        if reading == NormAfter && k > 0 {
            let rest: Matrix = a[k..].iter().map(|row| row[k..].to_vec()).collect();
            floor = least(row_norm(&rest), reading);
        }
        let p = pivot(&a, k, reading);
        let size = a[p][k].abs();
        let low = match reading {
            AtTheFloor => size < floor,
            FirstPivotOnly if k > 0 => size == 0.0,
            _ => size <= floor,
        };
        if !a[p][k].is_finite() || low {
            return Err(33);
        }
        a.swap(k, p);
        if reading != RightNotExchanged {
            b.swap(k, p);
        }
        if reading == PivotRowDivided {
            let by = a[k][k];
            a[k].iter_mut().for_each(|v| *v /= by);
            b[k] /= by;
        }
        for i in k + 1..n {
            let (below, by) = (a[i][k], a[k][k]);
            let taken = |left: f64, above: f64| match reading {
                FactorLast => left - below * above / by,
                Fused => (-(below / by)).mul_add(above, left),
                _ => left - below / by * above,
            };
            for j in k + 1..n {
                a[i][j] = taken(a[i][j], a[k][j]);
            }
            b[i] = taken(b[i], b[k]);
        }
    }
    let mut x = vec![0.0; n];
    for i in (0..n).rev() {
        let products = |j: usize| a[i][j] * x[j];
        let left = match reading {
            Successive => (i + 1..n).fold(b[i], |left, j| left - products(j)),
            Fused => b[i] - (i + 1..n).fold(-0.0, |sum, j| a[i][j].mul_add(x[j], sum)),
            Falling => b[i] - (i + 1..n).rev().fold(-0.0, |sum, j| sum + products(j)),
            _ => b[i] - (i + 1..n).fold(-0.0, |sum, j| sum + products(j)),
        };
        x[i] = match reading {
            Reciprocal => left * (1.0 / a[i][i]),
            _ => left / a[i][i],
        };
    }
    Ok(x)
}

/// The list with some of its amounts and values at 0, or without some events.
fn homogeneous(events: &[Event], reading: Reading) -> Vec<Event> {
    let mut list = events.to_vec();
    match reading {
        UnitsWithoutEvents => list.clear(),
        UnitsWithoutDoses => list.retain(|event| matches!(event, Event::Reset { .. })),
        _ => {}
    }
    for event in &mut list {
        match event {
            Event::Bolus { amount, .. } => {
                if !matches!(reading, UnitsWithDoses | UnitsWithBoluses) {
                    *amount = 0.0;
                }
            }
            Event::Infusion { amount, .. } => {
                if !matches!(reading, UnitsWithDoses | UnitsWithInfusions) {
                    *amount = 0.0;
                }
            }
            Event::Reset { value, .. } => {
                if reading != ResetsKept {
                    *value = 0.0;
                }
            }
        }
    }
    list
}

/// A closed cycle that is being worked out.
struct Closed<'a> {
    cycle: &'a Cycle,
    absolute: f64,
    relative: f64,
    reading: Reading,
    n: usize,
    /// The advances that all runs made.
    advances: Cell<u64>,
}

impl Closed<'_> {
    fn is(&self, reading: Reading) -> bool {
        self.reading == reading
    }

    /// 19 unless absolute is finite and above 0, relative finite and not below 0.
    fn tolerances_pass(&self) -> bool {
        let (absolute, relative) = (self.absolute, self.relative);
        let finite = |x: f64| x.is_finite() || self.is(InfiniteTolerances) && x == f64::INFINITY;
        let above = absolute > 0.0 || self.is(AbsoluteOf0) && absolute == 0.0;
        let below = match self.reading {
            RelativeAbove0 => relative <= 0.0,
            SignOfRelative => relative.is_sign_negative(),
            _ => relative < 0.0,
        };
        finite(absolute) && above && finite(relative) && !below
    }

    fn by(&self) -> u64 {
        let n = self.n as u64;
        match self.reading {
            ByStatesAndOne => n + 1,
            ByStates => n,
            Undivided => 1,
            _ => n + 2,
        }
    }

    fn part(&self, budget: u64, whole: Reading) -> u64 {
        if self.is(whole) {
            budget
        } else if self.is(DividedUp) {
            budget.div_ceil(self.by())
        } else {
            budget / self.by()
        }
    }

    /// A run of the list from these amounts, with the divided budgets.
    fn run(&self, events: &[Event], amounts: &[f64]) -> Run {
        let cycle = self.cycle;
        let samples = match self.reading {
            SamplesKept => cycle.samples.clone(),
            _ => vec![],
        };
        let rows = 4 * events.len() + samples.len() + 2;
        let whole = |budget: usize, reading| self.part(budget as u64, reading) as usize;
        let mut run = Run {
            given: cycle.given.clone(),
            rust: cycle.rust.clone(),
            cells: cycle.cells.clone(),
            amounts: amounts.to_vec(),
            start: cycle.start,
            end: cycle.end,
            rtol: cycle.rtol,
            atol: cycle.atol,
            propagations: self.part(cycle.propagations, PropagationsUndivided),
            event_budget: whole(cycle.event_budget, EventsUndivided),
            output_budget: whole(cycle.output_budget, OutputsUndivided),
            words: encoded(events),
            samples,
            room: Room {
                times: rows,
                sides: rows,
                values: rows * self.n,
            },
        };
        if self.is(PropagationsShared) {
            run.propagations = cycle.propagations.saturating_sub(self.advances.get());
        }
        if self.is(NoSecondPreparation) {
            (run.event_budget, run.output_budget) = (usize::MAX, usize::MAX);
        }
        run
    }

    /// The last post row of a run.
    fn last(&self, events: &[Event], amounts: &[f64]) -> Result<Vec<f64>, Refusal> {
        let run = self.run(events, amounts);
        let answer = run.answer(run.propagations);
        self.advances.set(self.advances.get() + answer.advances);
        if answer.number == 0 {
            return Ok(answer.rows.last().expect("rows").values.clone());
        }
        let time = if self.is(NoTimes) { 0.0 } else { answer.time };
        let number = answer.number;
        Err(Refusal { number, time })
    }

    /// The folded list, or a number.
    fn list(&self) -> Result<Vec<Event>, u64> {
        let cycle = self.cycle;
        let mut protocol = cycle.protocol(cycle.read()?);
        if self.is(SamplesClearedFirst) {
            protocol.samples.clear();
        }
        let budget = match self.reading {
            FoldOnDivided => self.part(cycle.event_budget as u64, Undivided) as usize,
            _ => cycle.event_budget,
        };
        if self.is(NoFold) {
            return Ok(protocol.events);
        }
        folded(self.n, &protocol, budget, 0, fold::Reading::Right)
    }

    /// The folded list, prepared with the divided budgets and no sample.
    fn ready(&self) -> Result<Vec<Event>, u64> {
        let pass = self.tolerances_pass();
        let late = matches!(
            self.reading,
            NoTolerances | TolerancesBehindFold | TolerancesLast
        );
        // The numbers ahead of 19: those of the words and the kernel.
        self.cycle.read()?;
        if !pass && !late {
            return Err(19);
        }
        let events = self.list()?;
        if !pass && self.is(TolerancesBehindFold) {
            return Err(19);
        }
        let run = self.run(&events, &vec![0.0; self.n]);
        if events.len() > run.event_budget {
            return Err(13);
        }
        if self.is(NoFold) {
            let answer = run.answer(run.propagations);
            if !answer.began {
                return Err(answer.number);
            }
        }
        let counted = match self.reading {
            SamplesKept | SamplesIn14 => self.cycle.samples.len(),
            _ => 0,
        };
        let rows = (4 * events.len() + counted + 2) * self.n;
        if rows > run.output_budget {
            return Err(14);
        }
        Ok(events)
    }

    /// The system and its right side.
    fn system(&self, events: &[Event]) -> Result<(Matrix, Vec<f64>, Matrix), Refusal> {
        let n = self.n;
        let zeroed = homogeneous(events, self.reading);
        let columns = || -> Result<Matrix, Refusal> {
            (0..n)
                .map(|j| {
                    let mut unit = vec![0.0; n];
                    unit[j] = 1.0;
                    let events = if self.is(ColumnsByDifference) {
                        events
                    } else {
                        &zeroed
                    };
                    self.last(events, &unit)
                })
                .collect()
        };
        let source = if self.is(RightSideZeroed) {
            &zeroed
        } else {
            events
        };
        let right = || self.last(source, &vec![0.0; n]);
        let (b, mut columns) = if self.is(UnitsFirst) {
            let columns = columns()?;
            (right()?, columns)
        } else {
            (right()?, columns()?)
        };
        if self.is(ColumnsByDifference) {
            for column in &mut columns {
                column.iter_mut().zip(&b).for_each(|(v, b)| *v -= b);
            }
        }
        let cell = |i: usize, j: usize| match self.reading {
            Transposed => columns[i][j],
            _ => columns[j][i],
        };
        let entry = |i: usize, j: usize| {
            if i == j {
                1.0 - cell(i, j)
            } else if self.is(NotNegated) {
                cell(i, j)
            } else {
                -cell(i, j)
            }
        };
        let row = |i: usize| (0..n).map(|j| entry(i, j)).collect();
        Ok(((0..n).map(row).collect(), b, columns))
    }

    fn scale(&self, start: f64, end: f64) -> f64 {
        let (absolute, relative) = (self.absolute, self.relative);
        let size = match self.reading {
            ScaleByStart => start.abs(),
            ScaleByEnd => end.abs(),
            ScaleOfTheSmaller => start.abs().min(end.abs()),
            _ => larger(start.abs(), end.abs()),
        };
        match self.reading {
            ScaleOfTheLarger => larger(absolute, relative * size),
            _ => absolute + relative * size,
        }
    }

    /// The greatest scaled residual, or 35 or 36.
    fn judged(&self, amounts: &[f64], end: &[f64]) -> Result<(f64, Vec<f64>), u64> {
        let mut maximum = 0.0;
        let mut all = vec![];
        let sizes = amounts.iter().chain(end).map(|v| v.abs());
        let greatest = sizes.fold(0.0, larger);
        for (i, (start, end)) in amounts.iter().zip(end).enumerate() {
            let scale = match self.reading {
                ScaleOfAllStates => self.scale(greatest, greatest),
                _ => self.scale(*start, *end),
            };
            if !scale.is_finite() && !self.is(NoScale) {
                return Err(if self.is(ScaleIs36) { 36 } else { 35 });
            }
            let difference = (end - start).abs();
            let scaled = difference / scale;
            let over = match self.reading {
                NoLimit => false,
                LimitOfTheLast if i + 1 < amounts.len() => false,
                Below1 => scaled >= 1.0,
                _ => scaled > 1.0,
            };
            if !scaled.is_finite() || over {
                return Err(36);
            }
            maximum = match self.reading {
                LastMaximum => scaled,
                SummedMaximum => maximum + scaled,
                UnscaledMaximum => larger(maximum, difference),
                _ => larger(maximum, scaled),
            };
            all.push(scaled);
        }
        Ok((maximum, all))
    }

    fn solved(&self) -> Result<Solved, Refusal> {
        let events = self.ready().map_err(Refusal::ahead)?;
        let (system, b, columns) = self.system(&events)?;
        let mut amounts = solve(system, b.clone(), self.reading).map_err(Refusal::ahead)?;
        let unfit = |v: &f64| match self.reading {
            Below0Accepted => !v.is_finite(),
            InfiniteAccepted => v.is_nan() || *v < 0.0,
            SignOf0 => !v.is_finite() || v.is_sign_negative(),
            Clamped => !v.is_finite(),
            _ => !v.is_finite() || *v < 0.0,
        };
        if amounts.iter().any(unfit) {
            return Err(Refusal::ahead(34));
        }
        if self.is(Clamped) {
            amounts.iter_mut().for_each(|v| *v = v.max(0.0));
        }
        let run = self.last(&events, &amounts).map_err(|refusal| {
            if self.is(CandidateWithoutTime) {
                Refusal::ahead(refusal.number)
            } else {
                refusal
            }
        })?;
        let end = match self.reading {
            EndOfTheFirstRun => b.clone(),
            EndOfTheLastUnit => columns[self.n - 1].clone(),
            EndByMatrix => (0..self.n)
                .map(|i| (0..self.n).fold(b[i], |sum, j| sum + columns[j][i] * amounts[j]))
                .collect(),
            _ => run,
        };
        if self.is(TolerancesLast) && !self.tolerances_pass() {
            return Err(Refusal::ahead(19));
        }
        let (maximum, scaled) = self.judged(&amounts, &end).map_err(Refusal::ahead)?;
        let residual = (0..self.n).map(|i| match self.reading {
            StartLessEnd => amounts[i] - end[i],
            Magnitudes => (end[i] - amounts[i]).abs(),
            ScaledResiduals => scaled[i],
            _ => end[i] - amounts[i],
        });
        let residual = residual.collect();
        if self.is(EndAmounts) {
            amounts = end;
        }
        Ok(Solved {
            amounts,
            residual,
            maximum,
        })
    }
}

/// The answer of a closed cycle, or its refusal, room aside.
pub fn closed(
    cycle: &Cycle,
    absolute: f64,
    relative: f64,
    reading: Reading,
) -> Result<Solved, Refusal> {
    let closed = Closed {
        cycle,
        absolute,
        relative,
        reading,
        n: cycle.n(),
        advances: Cell::new(0),
    };
    closed.solved()
}

/// A closed cycle with budgets that are enough.
fn ample(cycle: &Cycle) -> Cycle {
    Cycle {
        propagations: u64::MAX,
        event_budget: usize::MAX,
        output_budget: usize::MAX,
        ..cycle.clone()
    }
}

fn right(cycle: &Cycle) -> Closed<'_> {
    Closed {
        cycle,
        absolute: 1.0,
        relative: 0.0,
        reading: Right,
        n: cycle.n(),
        advances: Cell::new(0),
    }
}

/// The advances that each run makes; none where one is refused.
pub fn advances(cycle: &Cycle) -> Option<u64> {
    let ample = ample(cycle);
    let closed = right(&ample);
    let events = closed.ready().ok()?;
    closed.last(&events, &vec![0.0; closed.n]).ok()?;
    Some(closed.advances.get())
}

/// The system of a cycle, and its right side; none where a run is refused.
pub fn system(cycle: &Cycle) -> Option<(Matrix, Vec<f64>)> {
    let closed = right(cycle);
    let events = closed.ready().ok()?;
    let (system, b, _) = closed.system(&events).ok()?;
    Some((system, b))
}
