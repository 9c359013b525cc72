//! What a run's arguments and answer have in them, so that the comparison can
//! say what its draws came to.
use crate::run_entry::{decoded, Answer, Run, EVENTS, SAMPLES};
use qspquest_core::ActiveInputs;
use qspquest_modeling::Event;

pub const ALL: [&str; 30] = [
    "an event at the start",
    "an event at the end",
    "an infusion's end at another event's time",
    "a stopping reset at the start of an infusion on its target",
    "a stopping reset inside an infusion on its target",
    "a stopping reset at the end of an infusion on its target",
    "a reset that does not stop inside an infusion on its target",
    "a stopping reset inside an infusion on another target",
    "resets of one time on several targets",
    "resets of one time not in the order of the list",
    "resets at -0 and at +0",
    "a reset and a bolus of one time on one target",
    "two boluses of one time on one target",
    "three infusions on one target at one time",
    "equal samples",
    "samples of -0 and +0",
    "samples that are not sorted",
    "a sample at a boundary",
    "a sample and a boundary that differ in the sign of a zero",
    "two readings in one interval",
    "a window from -0",
    "a window from +0 with an event at -0",
    "a row at -0",
    "a row at +0",
    "an amount of -0 behind the first row",
    "a refusal at -0",
    "all reckoned rows reached",
    "no event and no sample",
    "192 events",
    "256 samples",
];

/// The names of what a run that began has; none of one that did not.
pub fn shapes(run: &Run, answer: &Answer) -> Vec<&'static str> {
    let mut found = vec![];
    if !answer.began {
        return found;
    }
    let events = decoded(&run.words).expect("events");
    let mut note = |holds: bool, name: &'static str| {
        if holds {
            found.push(name);
        }
    };
    let negative_zero = |t: f64| t.to_bits() == (-0.0_f64).to_bits();
    let positive_zero = |t: f64| t.to_bits() == 0;

    note(
        events.is_empty() && run.samples.is_empty(),
        "no event and no sample",
    );
    note(events.len() == EVENTS, "192 events");
    note(run.samples.len() == SAMPLES, "256 samples");
    note(negative_zero(run.start), "a window from -0");
    note(
        positive_zero(run.start) && events.iter().any(|e| negative_zero(e.time())),
        "a window from +0 with an event at -0",
    );
    let starts = events.iter().any(|e| e.time() == run.start);
    note(starts, "an event at the start");
    note(
        events.iter().any(|e| e.time() == run.end),
        "an event at the end",
    );

    // Target, start and end of each infusion; target, time, order, stops of each reset.
    let infusions: Vec<(usize, f64, f64)> = events
        .iter()
        .filter_map(|e| match e {
            Event::Infusion {
                time,
                target,
                duration,
                ..
            } => Some((*target, *time, time + duration)),
            _ => None,
        })
        .collect();
    let resets: Vec<(usize, f64, u16, bool)> = events
        .iter()
        .filter_map(|e| match e {
            Event::Reset {
                time,
                target,
                order,
                active_inputs,
                ..
            } => Some((
                *target,
                *time,
                *order,
                *active_inputs == ActiveInputs::StopTarget,
            )),
            _ => None,
        })
        .collect();
    let boluses: Vec<(usize, f64)> = events
        .iter()
        .filter_map(|e| match e {
            Event::Bolus { time, target, .. } => Some((*target, *time)),
            _ => None,
        })
        .collect();
    note(
        infusions
            .iter()
            .any(|i| events.iter().any(|e| e.time() == i.2)),
        "an infusion's end at another event's time",
    );
    type Infusion = (usize, f64, f64);
    type Reset = (usize, f64, u16, bool);
    let meet = |test: &dyn Fn(&Reset, &Infusion) -> bool| {
        resets.iter().any(|r| infusions.iter().any(|i| test(r, i)))
    };
    note(
        meet(&|r, i| r.3 && r.0 == i.0 && r.1 == i.1),
        "a stopping reset at the start of an infusion on its target",
    );
    note(
        meet(&|r, i| r.3 && r.0 == i.0 && i.1 < r.1 && r.1 < i.2),
        "a stopping reset inside an infusion on its target",
    );
    note(
        meet(&|r, i| r.3 && r.0 == i.0 && r.1 == i.2),
        "a stopping reset at the end of an infusion on its target",
    );
    note(
        meet(&|r, i| !r.3 && r.0 == i.0 && i.1 < r.1 && r.1 < i.2),
        "a reset that does not stop inside an infusion on its target",
    );
    note(
        meet(&|r, i| r.3 && r.0 != i.0 && i.1 < r.1 && r.1 < i.2),
        "a stopping reset inside an infusion on another target",
    );
    let pairs = |test: &dyn Fn(&Reset, &Reset) -> bool| {
        (0..resets.len()).any(|at| resets[..at].iter().any(|first| test(first, &resets[at])))
    };
    note(
        pairs(&|a, b| a.1 == b.1 && a.0 != b.0),
        "resets of one time on several targets",
    );
    note(
        pairs(&|a, b| a.1 == b.1 && a.2 > b.2),
        "resets of one time not in the order of the list",
    );
    note(
        pairs(&|a, b| a.1 == b.1 && a.1.to_bits() != b.1.to_bits()),
        "resets at -0 and at +0",
    );
    note(
        resets
            .iter()
            .any(|r| boluses.iter().any(|b| *b == (r.0, r.1))),
        "a reset and a bolus of one time on one target",
    );
    note(
        (0..boluses.len()).any(|at| boluses[..at].contains(&boluses[at])),
        "two boluses of one time on one target",
    );
    note(
        infusions.iter().any(|i| {
            let running = |o: &&Infusion| o.0 == i.0 && o.1 <= i.1 && i.1 < o.2;
            infusions.iter().filter(running).count() >= 3
        }),
        "three infusions on one target at one time",
    );

    let samples = &run.samples;
    note(
        (0..samples.len()).any(|at| samples[..at].contains(&samples[at])),
        "equal samples",
    );
    note(
        samples.iter().any(|t| negative_zero(*t)) && samples.iter().any(|t| positive_zero(*t)),
        "samples of -0 and +0",
    );
    note(
        samples.windows(2).any(|two| two[0] > two[1]),
        "samples that are not sorted",
    );
    let ends = infusions.iter().map(|i| i.2);
    let times = events.iter().map(|e| e.time()).chain(ends);
    let boundaries: Vec<f64> = times.chain([run.start, run.end]).collect();
    let meets = |s: &f64| boundaries.contains(s);
    note(samples.iter().any(meets), "a sample at a boundary");
    note(
        samples.iter().any(|s| {
            *s == 0.0 && meets(s) && !boundaries.iter().any(|b| b.to_bits() == s.to_bits())
        }),
        "a sample and a boundary that differ in the sign of a zero",
    );

    let rows = &answer.rows;
    let reading = |at: usize| !boundaries.contains(&rows[at].time);
    note(
        (1..rows.len()).any(|at| reading(at) && reading(at - 1)),
        "two readings in one interval",
    );
    note(rows.iter().any(|r| negative_zero(r.time)), "a row at -0");
    note(rows.iter().any(|r| positive_zero(r.time)), "a row at +0");
    note(
        rows.iter()
            .skip(1)
            .any(|r| r.values.iter().any(|v| negative_zero(*v))),
        "an amount of -0 behind the first row",
    );
    note(
        answer.number != 0 && negative_zero(answer.time),
        "a refusal at -0",
    );
    note(rows.len() == run.reckoned(), "all reckoned rows reached");
    found
}
