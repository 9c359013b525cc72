//! What a cycle's arguments and its fold have in them, so that the comparison
//! can say what its draws came to.
use crate::cycle_entry::{Answer, Cycle, EVENTS, PIECES, SAMPLES};
use crate::fold::{folded, Reading};
use qspquest_core::ActiveInputs;
use qspquest_modeling::Event;

pub const ALL: [&str; 47] = [
    "a head alone",
    "a head and a tail",
    "whole periods alone",
    "whole periods and a head",
    "whole periods, a head and a tail",
    "an infusion of one period exactly",
    "an infusion of 100 periods or more",
    "an infusion of 2^53 periods or more",
    "1e300 over a cycle of 7",
    "a quotient that rounds up to a whole number",
    "a quotient that rounds up, and the remainder is folded too",
    "a stopping reset at the infusion's own time",
    "a stopping reset one step after the infusion's time",
    "a stopping reset one step ahead of the infusion's time",
    "an infusion that a stopping reset cuts in the same cycle",
    "an infusion that a stopping reset cuts in the next cycle",
    "an infusion that the second of two stopping resets cuts",
    "a reset that does not stop, beside whole periods on its target",
    "a stopping reset beside whole periods on another target",
    "a stopping reset's sum that is passed over",
    "a stopping reset at NaN on an infusion's target",
    "a stopping reset outside the cycle on an infusion's target",
    "16 where a stopping reset outside forbids whole periods",
    "an event at the start",
    "an event one step after the start",
    "an event one step ahead of the start",
    "an event one step ahead of the end",
    "an event at the end",
    "an event at -0 in a cycle from +0",
    "an event at -0 in a cycle to +0",
    "a cycle from -0 with a piece at its start",
    "a subnormal period",
    "a period of one unit in the last place",
    "whole periods whose end falls short of the cycle's",
    "12 by whole periods whose end is past the cycle's",
    "12 by a head whose end rounds past the cycle's",
    "an infusion of amount 0",
    "an infusion of amount -0",
    "18 by stop less time",
    "18 by the quotient",
    "13 by the list",
    "13 by the pieces",
    "13 by the pieces, ahead of a later event's 16",
    "as many pieces as the budget, and more than events",
    "no event",
    "64 infusions in 192 pieces",
    "256 samples",
];

/// An infusion of the list.
struct Given {
    time: f64,
    target: usize,
    amount: f64,
    duration: f64,
}

/// A reset of the list.
struct Reset {
    time: f64,
    target: usize,
    stops: bool,
}

/// The names of what a cycle has whose words and kernel pass.
pub fn shapes(cycle: &Cycle, answer: &Answer) -> Vec<&'static str> {
    let mut found = vec![];
    let Ok(events) = cycle.read() else {
        return found;
    };
    let mut note = |holds: bool, name: &'static str| {
        if holds {
            found.push(name);
        }
    };
    let (start, end) = (cycle.start, cycle.end);
    let period = end - start;
    let done = answer.number == 0;
    let negative_zero = |t: f64| t.to_bits() == (-0.0_f64).to_bits();
    let positive_zero = |t: f64| t.to_bits() == 0;
    let infusions: Vec<Given> = events
        .iter()
        .filter_map(|event| match event {
            Event::Infusion {
                time,
                target,
                amount,
                duration,
            } => Some(Given {
                time: *time,
                target: *target,
                amount: *amount,
                duration: *duration,
            }),
            _ => None,
        })
        .collect();
    let resets: Vec<Reset> = events
        .iter()
        .filter_map(|event| match event {
            Event::Reset {
                time,
                target,
                active_inputs,
                ..
            } => Some(Reset {
                time: *time,
                target: *target,
                stops: *active_inputs == ActiveInputs::StopTarget,
            }),
            _ => None,
        })
        .collect();
    let stopped = |i: &Given| resets.iter().any(|r| r.stops && r.target == i.target);
    let left = |i: &Given| i.time + i.duration - i.time;
    let count = |i: &Given| (left(i) / period).floor();
    // Whole periods of an infusion, where it has any.
    let whole = |i: &Given| !stopped(i) && count(i) >= 1.0;

    if done {
        note(events.is_empty(), "no event");
        note(cycle.samples.len() == SAMPLES, "256 samples");
        note(
            infusions.len() == EVENTS && answer.pieces.len() == PIECES,
            "64 infusions in 192 pieces",
        );
        note(
            answer.pieces.len() == cycle.event_budget && answer.pieces.len() > events.len(),
            "as many pieces as the budget, and more than events",
        );
        for event in &events {
            let time = event.time();
            note(time == start, "an event at the start");
            note(
                time == start.next_up() && time != end,
                "an event one step after the start",
            );
            note(
                time == end.next_down() && time != start,
                "an event one step ahead of the end",
            );
            note(
                negative_zero(time) && positive_zero(start),
                "an event at -0 in a cycle from +0",
            );
        }
        let at_start =
            |piece: &Event| matches!(piece, Event::Infusion { time, .. } if negative_zero(*time));
        note(
            negative_zero(start)
                && infusions.iter().any(whole)
                && answer.pieces.iter().any(at_start),
            "a cycle from -0 with a piece at its start",
        );
        note(
            !infusions.is_empty() && period < f64::MIN_POSITIVE,
            "a subnormal period",
        );
        note(
            !infusions.is_empty() && end == start.next_up(),
            "a period of one unit in the last place",
        );
        for i in &infusions {
            let c = count(i);
            let rest = left(i) % period;
            let most = end - i.time;
            if whole(i) {
                note(rest == 0.0, "whole periods alone");
                note(rest > 0.0 && rest <= most, "whole periods and a head");
                note(rest > most, "whole periods, a head and a tail");
                note(left(i) == period, "an infusion of one period exactly");
                note(c >= 100.0, "an infusion of 100 periods or more");
                note(
                    c >= 9_007_199_254_740_992.0,
                    "an infusion of 2^53 periods or more",
                );
                note(
                    period == 7.0 && i.duration == 1e300,
                    "1e300 over a cycle of 7",
                );
                let up = c.mul_add(-period, left(i)) < 0.0;
                note(up, "a quotient that rounds up to a whole number");
                note(
                    up && rest > 0.0,
                    "a quotient that rounds up, and the remainder is folded too",
                );
                note(
                    start + period < end,
                    "whole periods whose end falls short of the cycle's",
                );
                note(
                    resets.iter().any(|r| r.target == i.target),
                    "a reset that does not stop, beside whole periods on its target",
                );
                note(
                    resets.iter().any(|r| r.stops),
                    "a stopping reset beside whole periods on another target",
                );
            } else if !stopped(i) {
                note(left(i) <= most, "a head alone");
                note(left(i) > most, "a head and a tail");
            }
            note(positive_zero(i.amount), "an infusion of amount 0");
            note(negative_zero(i.amount), "an infusion of amount -0");
            let on_target: Vec<&Reset> = resets
                .iter()
                .filter(|r| r.stops && r.target == i.target)
                .collect();
            let next = |r: &Reset| {
                if r.time > i.time {
                    r.time
                } else {
                    r.time + period
                }
            };
            let sum = i.time + i.duration;
            for r in &on_target {
                let after = next(r) > i.time;
                note(
                    r.time == i.time && after && next(r) < sum,
                    "a stopping reset at the infusion's own time",
                );
                note(
                    r.time == i.time.next_up(),
                    "a stopping reset one step after the infusion's time",
                );
                note(
                    r.time == i.time.next_down(),
                    "a stopping reset one step ahead of the infusion's time",
                );
                note(
                    r.time > i.time && next(r) < sum,
                    "an infusion that a stopping reset cuts in the same cycle",
                );
                note(
                    r.time < i.time && after && next(r) < sum,
                    "an infusion that a stopping reset cuts in the next cycle",
                );
                note(!after, "a stopping reset's sum that is passed over");
            }
            if let [first, second] = on_target[..] {
                note(
                    next(second) > i.time && next(second) < next(first) && next(first) < sum,
                    "an infusion that the second of two stopping resets cuts",
                );
            }
        }
    }

    let outside = |time: f64| !(time >= start && time < end);
    for event in &events {
        let time = event.time();
        if answer.number == 16 {
            note(
                time == start.next_down(),
                "an event one step ahead of the start",
            );
            note(time == end, "an event at the end");
            note(
                negative_zero(time) && positive_zero(end),
                "an event at -0 in a cycle to +0",
            );
        }
    }
    if answer.number == 16 {
        for i in &infusions {
            let beyond = |r: &&Reset| r.stops && r.target == i.target && outside(r.time);
            let refused = resets.iter().filter(beyond);
            for r in refused {
                let name = if r.time.is_nan() {
                    "a stopping reset at NaN on an infusion's target"
                } else {
                    "a stopping reset outside the cycle on an infusion's target"
                };
                note(true, name);
            }
        }
        let other = own(cycle, Reading::ResetsThatPass);
        note(
            other == Err(13) || other == Err(18),
            "16 where a stopping reset outside forbids whole periods",
        );
    }
    if answer.number == 12 {
        for i in infusions.iter().filter(|i| whole(i)) {
            note(
                start + period > end && i.target < cycle.n(),
                "12 by whole periods whose end is past the cycle's",
            );
        }
        for i in &infusions {
            let rest = if whole(i) { left(i) % period } else { left(i) };
            let head = rest.min(end - i.time);
            note(
                !stopped(i) && i.target < cycle.n() && rest > 0.0 && i.time + head > end,
                "12 by a head whose end rounds past the cycle's",
            );
        }
    }
    if answer.number == 18 {
        note(
            infusions.iter().any(|i| left(i).is_infinite()),
            "18 by stop less time",
        );
        note(
            infusions
                .iter()
                .any(|i| left(i).is_finite() && (left(i) / period).is_infinite()),
            "18 by the quotient",
        );
    }
    if answer.number == 13 {
        let list = events.len() > cycle.event_budget;
        note(list, "13 by the list");
        note(!list, "13 by the pieces");
        note(
            !list && own(cycle, Reading::CountBehind16) == Err(16),
            "13 by the pieces, ahead of a later event's 16",
        );
    }
    found
}

/// The fold by a reading.
pub fn own(cycle: &Cycle, reading: Reading) -> Result<Vec<Event>, u64> {
    let events = cycle.read()?;
    folded(
        cycle.n(),
        &cycle.protocol(events),
        cycle.event_budget,
        cycle.output_budget,
        reading,
    )
}
