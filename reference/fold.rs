//! Document 01's folded cycle, written out plainly, and its wrong readings. The
//! Rust's answer to every cycle is held to the right one; the comparison must
//! catch the others.
use qspquest_core::ActiveInputs;
use qspquest_modeling::{Event, Protocol};
use Reading::*;

#[derive(Clone, Copy, Debug, PartialEq)]
pub enum Reading {
    Right,
    // Whole periods.
    ExactFloor,
    Nearest,
    Ceiling,
    NarrowCount,
    FromTwoPeriods,
    RemainderByProduct,
    RemainderFused,
    RemainderByFraction,
    RemainderKept,
    PeriodTimesCount,
    RateTimesCount,
    WholeAtItsTime,
    WholesBehind,
    WholesApart,
    AmountTimesCount,
    // Head and tail.
    ByShare,
    HeadBySum,
    HeadToPeriod,
    TailAtItsTime,
    TailFirst,
    TailBehindTheHead,
    NoTail,
    EmptyPieces,
    NoPiecesOfNothing,
    StartAsPlusZero,
    TimesAsPlusZero,
    ResetsFirst,
    SortedByTime,
    // The stop.
    LengthOfDuration,
    AnotherPeriod,
    OwnTimeIsNext,
    OwnTimeStops,
    PassedOverTaken,
    NoNextPeriod,
    WholesDespiteReset,
    EveryResetStops,
    EveryTargetStops,
    FirstResetStops,
    LastResetStops,
    EarlierInTheList,
    ResetsThatPass,
    RateOfTheStop,
    ResetsStopNoMore,
    // Numbers.
    InfinitePeriod,
    EndsAre10,
    TenFirst,
    SamplesFirst,
    NoWindow,
    NoSamples,
    CountAtBudget,
    CountAtTheEnd,
    CountBehind16,
    OnlyTheListCounts,
    CountPastTheList,
    TimeBehindPieces,
    TimesFirst,
    TimesInClosedCycle,
    TimesByTotalOrder,
    TargetFirst,
    StopBehindResets,
    LostDuration,
    SignOfAmount,
    BolusAmountIs17,
    NoOverflowIs18,
    OverflowDespiteReset,
    EveryRoundIs18,
    SamplesInHalfOpen,
    TwelveAheadOfEleven,
    OrdersByTarget,
    OrdersByBits,
    ValuesBelowZero,
    OutputBudget,
}

/// Each wrong reading, with its name.
pub const WRONG: &[(&str, Reading)] = &[
    ("the floor of the exact quotient", ExactFloor),
    ("the quotient rounded to the nearest", Nearest),
    ("the quotient rounded up", Ceiling),
    ("a count of 64 bits", NarrowCount),
    ("whole periods from two on", FromTwoPeriods),
    ("the remainder less count times period", RemainderByProduct),
    ("the same, fused", RemainderFused),
    (
        "the remainder by the quotient's fraction",
        RemainderByFraction,
    ),
    ("the remainder is not taken", RemainderKept),
    ("rate times (period times count)", PeriodTimesCount),
    ("(rate times count) times period", RateTimesCount),
    ("whole periods at the infusion's time", WholeAtItsTime),
    ("whole periods behind head and tail", WholesBehind),
    ("a piece for each whole period", WholesApart),
    ("amount times count", AmountTimesCount),
    ("amounts by their share of the duration", ByShare),
    ("a head where time and rest are in the cycle", HeadBySum),
    ("a head of at most a period", HeadToPeriod),
    ("the tail at the infusion's time", TailAtItsTime),
    ("the tail ahead of the head", TailFirst),
    ("the tail where the head ends", TailBehindTheHead),
    ("no tail", NoTail),
    ("pieces of no length", EmptyPieces),
    ("no pieces of an amount of 0", NoPiecesOfNothing),
    ("a start of -0 as +0", StartAsPlusZero),
    ("a time of -0 as +0", TimesAsPlusZero),
    ("resets ahead of all others", ResetsFirst),
    ("the list sorted by time", SortedByTime),
    (
        "the duration in the place of stop less time",
        LengthOfDuration,
    ),
    (
        "a sum that is not after its own takes another period",
        AnotherPeriod,
    ),
    ("a reset at the infusion's own time is next", OwnTimeIsNext),
    ("a reset at the infusion's own time stops it", OwnTimeStops),
    ("a sum that is not after its own is taken", PassedOverTaken),
    ("a reset ahead of the infusion says nothing", NoNextPeriod),
    (
        "whole periods with a stopping reset too",
        WholesDespiteReset,
    ),
    ("every reset stops", EveryResetStops),
    ("a reset stops every target", EveryTargetStops),
    ("the first stopping reset alone", FirstResetStops),
    ("the last stopping reset alone", LastResetStops),
    ("resets ahead of it in the list alone", EarlierInTheList),
    ("a reset that 16 refuses does not count", ResetsThatPass),
    ("the rate of the shortened infusion", RateOfTheStop),
    ("resets stop no more once folded", ResetsStopNoMore),
    ("a period that overflows is taken", InfinitePeriod),
    ("the ends of the cycle are 10", EndsAre10),
    ("10 first", TenFirst),
    ("11 ahead of the events", SamplesFirst),
    ("tolerances are not looked at", NoWindow),
    ("samples are not looked at", NoSamples),
    ("13 at the budget", CountAtBudget),
    ("13 at the end", CountAtTheEnd),
    ("13 behind every 16", CountBehind16),
    ("13 by the list alone", OnlyTheListCounts),
    ("13 by the pieces alone", CountPastTheList),
    ("16 behind 17, 18 and 13", TimeBehindPieces),
    ("16 of every event ahead of 17 and 18", TimesFirst),
    (
        "an event at the end of the cycle is taken",
        TimesInClosedCycle,
    ),
    ("times by total order", TimesByTotalOrder),
    ("12 by a target ahead of 17", TargetFirst),
    ("17 by the stop behind the resets", StopBehindResets),
    ("a duration lost in its sum is taken", LostDuration),
    ("an amount of -0 is below 0", SignOfAmount),
    ("a bolus's amount is 17", BolusAmountIs17),
    ("no count is 18", NoOverflowIs18),
    ("18 with a stopping reset too", OverflowDespiteReset),
    ("a count above 2^53 is 18", EveryRoundIs18),
    ("a sample at the end is 11", SamplesInHalfOpen),
    ("12 ahead of 11", TwelveAheadOfEleven),
    ("reset orders by target", OrdersByTarget),
    ("reset orders by the bits of the time", OrdersByBits),
    ("a reset's value below 0 is 12", ValuesBelowZero),
    ("14 too", OutputBudget),
];

fn infusion(time: f64, target: usize, amount: f64, duration: f64) -> Event {
    Event::Infusion {
        time,
        target,
        amount,
        duration,
    }
}

/// A stopping reset on the target: its time.
fn stopping(event: &Event, target: usize, reading: Reading) -> Option<f64> {
    match event {
        Event::Reset {
            time,
            target: own,
            active_inputs,
            ..
        } if (*own == target || reading == EveryTargetStops)
            && (*active_inputs == ActiveInputs::StopTarget || reading == EveryResetStops) =>
        {
            Some(*time)
        }
        _ => None,
    }
}

/// What is folded, for n states.
struct Fold<'a> {
    n: usize,
    cycle: &'a Protocol,
    budget: usize,
    outputs: usize,
    reading: Reading,
    period: f64,
}

impl Fold<'_> {
    fn is(&self, reading: Reading) -> bool {
        self.reading == reading
    }

    /// 16 unless in [start, end).
    fn time_passes(&self, time: f64) -> bool {
        let (start, end) = (self.cycle.start, self.cycle.end);
        match self.reading {
            TimesInClosedCycle => time.is_finite() && time >= start && time <= end,
            TimesByTotalOrder => {
                time.is_finite() && time.total_cmp(&start).is_ge() && time.total_cmp(&end).is_lt()
            }
            _ => time.is_finite() && time >= start && time < end,
        }
    }

    /// The stop of an infusion, and whether a stopping reset is on its target.
    fn stop(&self, place: usize, time: f64, target: usize, sum: f64) -> (f64, bool) {
        let events = &self.cycle.events;
        let counted = match self.reading {
            EarlierInTheList => &events[..place],
            _ => &events[..],
        };
        let mut resets: Vec<f64> = counted
            .iter()
            .filter_map(|event| stopping(event, target, self.reading))
            .collect();
        match self.reading {
            ResetsThatPass => resets.retain(|reset| self.time_passes(*reset)),
            FirstResetStops => resets.truncate(1),
            LastResetStops => drop(resets.drain(..resets.len().max(1) - 1)),
            _ => {}
        }
        let mut stop = sum;
        for reset in &resets {
            let own = *reset == time && matches!(self.reading, OwnTimeIsNext | OwnTimeStops);
            let next = if *reset > time || own {
                *reset
            } else if self.is(NoNextPeriod) {
                continue;
            } else if self.is(AnotherPeriod) && reset + self.period <= time {
                reset + self.period + self.period
            } else {
                reset + self.period
            };
            let after = next > time
                || self.is(PassedOverTaken) && next <= time
                || self.is(OwnTimeStops) && own;
            if after && next < stop {
                stop = next;
            }
        }
        (stop, !resets.is_empty())
    }

    /// The count of whole periods.
    fn count(&self, left: f64) -> f64 {
        let quotient = left / self.period;
        let count = quotient.floor();
        match self.reading {
            ExactFloor if count.mul_add(-self.period, left) < 0.0 => count - 1.0,
            Nearest => quotient.round(),
            Ceiling => quotient.ceil(),
            NarrowCount => count as i64 as f64,
            _ => count,
        }
    }

    fn remainder(&self, left: f64, count: f64) -> f64 {
        let period = self.period;
        match self.reading {
            RemainderByProduct => left - count * period,
            RemainderFused => count.mul_add(-period, left),
            RemainderByFraction => (left / period - count) * period,
            RemainderKept => left,
            _ => left % period,
        }
    }

    /// The pieces of an infusion, or 17 or 18.
    fn pieces(
        &self,
        place: usize,
        time: f64,
        target: usize,
        amount: f64,
        duration: f64,
    ) -> Result<Vec<Event>, u64> {
        if self.is(TargetFirst) && target >= self.n {
            return Err(12);
        }
        let sum = time + duration;
        let (stop, resets) = self.stop(place, time, target, sum);
        let tested = if self.is(StopBehindResets) { stop } else { sum };
        if !duration.is_finite()
            || duration <= 0.0
            || !amount.is_finite()
            || amount < 0.0
            || self.is(SignOfAmount) && amount.is_sign_negative()
            || !tested.is_finite()
            || tested <= time && !self.is(LostDuration)
        {
            return Err(17);
        }
        if self.is(NoPiecesOfNothing) && amount == 0.0 {
            return Ok(vec![]);
        }
        let rate = match self.reading {
            RateOfTheStop => amount / (stop - time),
            _ => amount / duration,
        };
        let start = match self.reading {
            StartAsPlusZero => self.cycle.start + 0.0,
            _ => self.cycle.start,
        };
        let period = self.period;
        let mut left = match self.reading {
            LengthOfDuration if stop == sum => duration,
            _ => stop - time,
        };
        let mut pieces = vec![];
        if self.is(OverflowDespiteReset) && !(left / period).is_finite() {
            return Err(18);
        }
        if !resets || self.is(WholesDespiteReset) {
            let count = self.count(left);
            if !count.is_finite() && !self.is(NoOverflowIs18)
                || self.is(EveryRoundIs18) && count > 9_007_199_254_740_992.0
            {
                return Err(18);
            }
            let least = if self.is(FromTwoPeriods) { 2.0 } else { 1.0 };
            if count >= least {
                let amount = match self.reading {
                    PeriodTimesCount => rate * (period * count),
                    RateTimesCount => rate * count * period,
                    ByShare => amount * (period * count / duration),
                    AmountTimesCount => amount * count,
                    _ => rate * period * count,
                };
                let at = if self.is(WholeAtItsTime) { time } else { start };
                if self.is(WholesApart) {
                    let each = infusion(at, target, rate * period, period);
                    pieces.resize(count.min(200.0) as usize, each);
                } else {
                    pieces.push(infusion(at, target, amount, period));
                }
                left = self.remainder(left, count);
            }
        }
        let whole = pieces.len();
        let share = |length: f64| match self.reading {
            ByShare => amount * (length / duration),
            _ => rate * length,
        };
        if left > 0.0 || self.is(EmptyPieces) {
            let most = self.cycle.end - time;
            let head = match self.reading {
                HeadToPeriod => left.min(period),
                HeadBySum if time + left <= self.cycle.end => left,
                HeadBySum => most,
                _ => left.min(most),
            };
            pieces.push(infusion(time, target, share(head), head));
            let tail = left - head;
            if (tail > 0.0 || self.is(EmptyPieces)) && !self.is(NoTail) {
                let at = match self.reading {
                    TailAtItsTime => time,
                    TailBehindTheHead => time + head,
                    _ => start,
                };
                pieces.push(infusion(at, target, share(tail), tail));
                if self.is(TailFirst) {
                    let last = pieces.len() - 1;
                    pieces.swap(last - 1, last);
                }
            }
        }
        if self.is(WholesBehind) {
            pieces.rotate_left(whole);
        }
        Ok(pieces)
    }

    fn window_passes(&self) -> bool {
        let Protocol {
            start,
            end,
            rtol,
            atol,
            ..
        } = *self.cycle;
        let positive = |x: f64| x.is_finite() && x > 0.0;
        start.is_finite() && end.is_finite() && end > start && positive(rtol) && positive(atol)
    }

    fn samples_pass(&self) -> bool {
        let (start, end) = (self.cycle.start, self.cycle.end);
        self.cycle.samples.iter().all(|t| {
            let last = if self.is(SamplesInHalfOpen) {
                *t < end
            } else {
                *t <= end
            };
            t.is_finite() && *t >= start && last
        })
    }

    /// 12, event by event.
    fn events_pass(&self, events: &[Event]) -> bool {
        let (start, end) = (self.cycle.start, self.cycle.end);
        let mut orders: Vec<(f64, u16, usize)> = vec![];
        events.iter().all(|event| {
            let time = event.time();
            let placed =
                time.is_finite() && time >= start && time <= end && event.target() < self.n;
            let dose = |amount: f64| amount.is_finite() && amount >= 0.0;
            placed
                && match event {
                    Event::Bolus { amount, .. } => dose(*amount),
                    Event::Infusion {
                        amount, duration, ..
                    } => {
                        let stop = time + duration;
                        dose(*amount)
                            && duration.is_finite()
                            && *duration > 0.0
                            && stop > time
                            && stop <= end
                            && (amount / duration).is_finite()
                    }
                    Event::Reset {
                        target,
                        value,
                        order,
                        ..
                    } => {
                        let used = orders.iter().any(|other| {
                            let times = match self.reading {
                                OrdersByBits => other.0.to_bits() == time.to_bits(),
                                _ => other.0 == time,
                            };
                            let targets = other.2 == *target || !self.is(OrdersByTarget);
                            times && other.1 == *order && targets
                        });
                        orders.push((time, *order, *target));
                        let fit = *value >= 0.0 || !self.is(ValuesBelowZero);
                        value.is_finite() && fit && !used
                    }
                }
        })
    }

    fn folded(&self) -> Result<Vec<Event>, u64> {
        let events = &self.cycle.events;
        let ends = self.cycle.start.is_finite() && self.cycle.end.is_finite();
        let period = self.period.is_finite() || self.is(InfinitePeriod);
        if self.is(TenFirst) && !self.window_passes() {
            return Err(10);
        }
        if !ends || !period || self.period.is_nan() || self.period <= 0.0 {
            return Err(if self.is(EndsAre10) { 10 } else { 15 });
        }
        let over =
            |count: usize| count > self.budget || self.is(CountAtBudget) && count == self.budget;
        let lists = !matches!(self.reading, CountAtTheEnd | CountPastTheList);
        if lists && over(events.len()) {
            return Err(13);
        }
        if self.is(SamplesFirst) && !self.samples_pass() {
            return Err(11);
        }
        let times = || events.iter().all(|event| self.time_passes(event.time()));
        if matches!(self.reading, CountBehind16 | TimesFirst) && !times() {
            // 17 and 18 of an earlier event are still ahead, or not.
            let ahead = events.iter().enumerate().find_map(|(place, event)| {
                let behind = self.is(TimesFirst) || !self.time_passes(event.time());
                let own = || self.pieces_of(place, event).err();
                if behind {
                    Some(16)
                } else {
                    own()
                }
            });
            return Err(ahead.unwrap_or(16));
        }
        let mut list = vec![];
        for (place, event) in events.iter().enumerate() {
            let outside = !self.time_passes(event.time());
            if outside && !self.is(TimeBehindPieces) {
                return Err(16);
            }
            list.extend(self.pieces_of(place, event)?);
            let counts = !matches!(self.reading, CountAtTheEnd | OnlyTheListCounts);
            if counts && over(list.len()) {
                return Err(13);
            }
            if outside {
                return Err(16);
            }
        }
        if self.is(CountAtTheEnd) && over(list.len()) {
            return Err(13);
        }
        if !self.window_passes() && !self.is(NoWindow) {
            return Err(10);
        }
        if self.is(TwelveAheadOfEleven) && !self.events_pass(&list) {
            return Err(12);
        }
        if !self.samples_pass() && !self.is(NoSamples) {
            return Err(11);
        }
        if !self.events_pass(&list) {
            return Err(12);
        }
        let rows = 4 * list.len() + self.cycle.samples.len() + 2;
        if self.is(OutputBudget) && rows * self.n > self.outputs {
            return Err(14);
        }
        match self.reading {
            ResetsFirst => list.sort_by_key(|event| !matches!(event, Event::Reset { .. })),
            SortedByTime => list.sort_by(|a, b| a.time().total_cmp(&b.time())),
            _ => {}
        }
        Ok(list)
    }

    fn pieces_of(&self, place: usize, event: &Event) -> Result<Vec<Event>, u64> {
        match event {
            Event::Infusion {
                time,
                target,
                amount,
                duration,
            } => self.pieces(place, *time, *target, *amount, *duration),
            Event::Bolus { amount, .. }
                if self.is(BolusAmountIs17) && (!amount.is_finite() || *amount < 0.0) =>
            {
                Err(17)
            }
            Event::Reset {
                time,
                target,
                value,
                order,
                ..
            } if self.is(ResetsStopNoMore) => Ok(vec![Event::Reset {
                time: *time,
                target: *target,
                value: *value,
                order: *order,
                active_inputs: ActiveInputs::Continue,
            }]),
            Event::Bolus {
                time,
                target,
                amount,
            } if self.is(TimesAsPlusZero) => Ok(vec![Event::Bolus {
                time: time + 0.0,
                target: *target,
                amount: *amount,
            }]),
            other => Ok(vec![other.clone()]),
        }
    }
}

/// The folded list for n states, or a number.
pub fn folded(
    n: usize,
    cycle: &Protocol,
    budget: usize,
    outputs: usize,
    reading: Reading,
) -> Result<Vec<Event>, u64> {
    let fold = Fold {
        n,
        cycle,
        budget,
        outputs,
        reading,
        period: cycle.end - cycle.start,
    };
    fold.folded()
}
