//! Fixed runs: the bench values of document 01 that a run has, and inputs that
//! tell its readings apart; and one run with slices of every length.
use crate::draw::{Parameters, TWO_59};
use crate::run_entry::{made, side, Answer, Room, Run, BOLUS, INFUSION, RESET};

/// A run, and what must hold of the Rust's answer to it.
pub struct Fixed {
    pub name: &'static str,
    pub run: Run,
    number: u64,
    time: f64,
    rows: usize,
    advances: u64,
    /// Time, side and amounts of each row, where they are known.
    known: Option<Vec<(f64, u8, Vec<f64>)>>,
}

const PRE: u8 = 1;
const POST: u8 = 2;
const MAX: f64 = f64::MAX;

fn of(
    name: &'static str,
    clearance: f64,
    volumes: &[f64],
    exchange: &[f64],
    absorption: Option<f64>,
) -> Fixed {
    let given = Parameters {
        clearance,
        volumes: volumes.to_vec(),
        exchange: exchange.to_vec(),
        depot: absorption.is_some(),
        absorption: absorption.unwrap_or(f64::NAN),
    };
    let (rust, cells) = made(&given).expect("fixed parameters are taken");
    let n = rust.state_count();
    Fixed {
        name,
        run: Run {
            given,
            rust: Some(rust),
            cells: cells.to_vec(),
            amounts: vec![3.0; n],
            start: 0.0,
            end: 1.0,
            rtol: 1.0,
            atol: 1.0,
            propagations: 1000,
            event_budget: 1000,
            output_budget: 1_000_000,
            words: vec![],
            samples: vec![],
            room: Room {
                times: 0,
                sides: 0,
                values: 0,
            },
        },
        number: 0,
        time: 0.0,
        rows: 0,
        advances: 0,
        known: None,
    }
}

/// One state that keeps its amount.
fn still(name: &'static str) -> Fixed {
    of(name, 0.0, &[1.0], &[], None)
}

/// Two states with a flow between.
fn two(name: &'static str) -> Fixed {
    of(name, 1.5, &[2.0, 4.0], &[0.7], None)
}

impl Fixed {
    fn with(mut self, change: impl FnOnce(&mut Run)) -> Fixed {
        change(&mut self.run);
        self
    }

    fn window(self, start: f64, end: f64) -> Fixed {
        self.with(|run| (run.start, run.end) = (start, end))
    }

    fn amounts(self, amounts: &[f64]) -> Fixed {
        self.with(|run| run.amounts = amounts.to_vec())
    }

    fn samples(self, samples: &[f64]) -> Fixed {
        self.with(|run| run.samples = samples.to_vec())
    }

    fn propagations(self, propagations: u64) -> Fixed {
        self.with(|run| run.propagations = propagations)
    }

    /// Words that the kind lacks hold something.
    fn bolus(self, time: f64, target: u64, amount: f64) -> Fixed {
        let words = [
            BOLUS,
            time.to_bits(),
            target,
            amount.to_bits(),
            u64::MAX,
            u64::MAX,
        ];
        self.with(|run| run.words.extend(words))
    }

    fn infusion(self, time: f64, target: u64, amount: f64, duration: f64) -> Fixed {
        let words = [
            INFUSION,
            time.to_bits(),
            target,
            amount.to_bits(),
            duration.to_bits(),
            7,
        ];
        self.with(|run| run.words.extend(words))
    }

    fn reset(self, time: f64, target: u64, value: f64, order: u64, stops: bool) -> Fixed {
        let words = [
            RESET,
            time.to_bits(),
            target,
            value.to_bits(),
            order,
            u64::from(stops),
        ];
        self.with(|run| run.words.extend(words))
    }

    fn exact_room(&mut self) {
        let (rows, n) = (self.run.reckoned(), self.run.n());
        self.run.room = Room {
            times: rows,
            sides: rows,
            values: rows * n,
        };
    }

    /// Reaches the end, with rows and advances.
    fn done(mut self, rows: usize, advances: u64) -> Fixed {
        self.exact_room();
        (self.rows, self.advances) = (rows, advances);
        self
    }

    /// Reaches the end with these rows.
    fn gives(self, advances: u64, known: &[(f64, u8, &[f64])]) -> Fixed {
        let mut fixed = self.done(known.len(), advances);
        let row = |row: &(f64, u8, &[f64])| (row.0, row.1, row.2.to_vec());
        fixed.known = Some(known.iter().map(row).collect());
        fixed
    }

    /// Is refused ahead of the run.
    fn ahead(self, number: u64) -> Fixed {
        self.stopped(number, 0.0, 0)
    }

    /// Is stopped in the run, with a time and advances.
    fn stopped(mut self, number: u64, time: f64, advances: u64) -> Fixed {
        self.exact_room();
        (self.number, self.time, self.advances) = (number, time, advances);
        self
    }

    /// With lengths that differ from those reckoned.
    fn room(mut self, change: impl FnOnce(&mut Room)) -> Fixed {
        change(&mut self.run.room);
        self
    }

    /// Holds the Rust's answer to what is known of it.
    pub fn hold(&self, answer: &Answer) {
        let name = self.name;
        assert_eq!(answer.number, self.number, "{name}");
        assert_eq!(answer.time.to_bits(), self.time.to_bits(), "{name}");
        assert_eq!(answer.rows.len(), self.rows, "{name}");
        assert_eq!(answer.advances, self.advances, "{name}");
        let Some(known) = &self.known else { return };
        for (row, (time, code, values)) in answer.rows.iter().zip(known) {
            assert_eq!(row.time.to_bits(), time.to_bits(), "{name}");
            assert_eq!(side(row), *code, "{name}");
            let bits = |values: &[f64]| values.iter().map(|v| v.to_bits()).collect::<Vec<_>>();
            assert_eq!(bits(&row.values), bits(values), "{name}");
        }
    }
}

pub fn cases() -> Vec<Fixed> {
    let mut cases = at_times();
    cases.extend(with_infusions());
    cases.extend(refused());
    cases.extend(in_order());
    cases.extend(full());
    cases
}

/// Rows and their times.
fn at_times() -> Vec<Fixed> {
    vec![
        still("the printout of document 01")
            .bolus(0.0, 0, 1.0)
            .gives(
                1,
                &[(0.0, PRE, &[3.0]), (0.0, POST, &[4.0]), (1.0, POST, &[4.0])],
            ),
        still("no event, no sample").gives(1, &[(0.0, POST, &[3.0]), (1.0, POST, &[3.0])]),
        still("P7, a bolus at the end")
            .window(0.0, 8.0)
            .bolus(8.0, 0, 1.0)
            .gives(
                1,
                &[(0.0, POST, &[3.0]), (8.0, PRE, &[3.0]), (8.0, POST, &[4.0])],
            ),
        still("an event at -0, the start at +0")
            .bolus(-0.0, 0, 1.0)
            .gives(
                1,
                &[
                    (-0.0, PRE, &[3.0]),
                    (-0.0, POST, &[4.0]),
                    (1.0, POST, &[4.0]),
                ],
            ),
        still("an event at +0, the start at -0")
            .window(-0.0, 1.0)
            .bolus(0.0, 0, 1.0)
            .gives(
                1,
                &[
                    (-0.0, PRE, &[3.0]),
                    (-0.0, POST, &[4.0]),
                    (1.0, POST, &[4.0]),
                ],
            ),
        still("a sample of +0, then one of -0")
            .window(-1.0, 1.0)
            .samples(&[0.0, -0.0])
            .gives(
                2,
                &[
                    (-1.0, POST, &[3.0]),
                    (-0.0, POST, &[3.0]),
                    (1.0, POST, &[3.0]),
                ],
            ),
        still("a sample of +0 alone")
            .window(-1.0, 1.0)
            .samples(&[0.0])
            .gives(
                2,
                &[
                    (-1.0, POST, &[3.0]),
                    (0.0, POST, &[3.0]),
                    (1.0, POST, &[3.0]),
                ],
            ),
        still("a sample of -0 at a boundary of +0")
            .window(-1.0, 1.0)
            .samples(&[-0.0])
            .bolus(0.0, 0, 1.0)
            .done(4, 2),
        two("samples that are not sorted, equal, and at boundaries")
            .samples(&[0.75, 0.0, 0.25, 1.0, 0.75, 0.5])
            .bolus(0.5, 0, 1.0)
            .done(6, 4),
        two("many readings in one interval")
            .window(0.0, 7.0)
            .samples(&[0.1, 0.2, 0.3, 0.5, 0.7, 1.1, 1.3, 1.7, 2.3, 3.1])
            .done(12, 11),
        still("-0 in amounts, a bolus and a reset")
            .amounts(&[-0.0])
            .bolus(0.0, 0, -0.0)
            .reset(1.0, 0, -0.0, 0, false)
            .gives(
                1,
                &[
                    (0.0, PRE, &[-0.0]),
                    (0.0, POST, &[-0.0]),
                    (1.0, PRE, &[0.0]),
                    (1.0, POST, &[-0.0]),
                ],
            ),
        still("resets at -0 and +0 go by order")
            .window(-1.0, 1.0)
            .reset(-0.0, 0, 5.0, 2, false)
            .reset(0.0, 0, 7.0, 1, false)
            .gives(
                2,
                &[
                    (-1.0, POST, &[3.0]),
                    (-0.0, PRE, &[3.0]),
                    (-0.0, POST, &[5.0]),
                    (1.0, POST, &[5.0]),
                ],
            ),
        still("resets come ahead of boluses")
            .bolus(0.0, 0, 1.0)
            .reset(0.0, 0, 7.0, 65_535, true)
            .gives(
                1,
                &[(0.0, PRE, &[3.0]), (0.0, POST, &[8.0]), (1.0, POST, &[8.0])],
            ),
        // 1 and twice 2^-53 is 1 from the left, and more from the right.
        still("boluses in list order")
            .amounts(&[0.0])
            .bolus(0.0, 0, 1.0)
            .bolus(0.0, 0, f64::EPSILON / 2.0)
            .bolus(0.0, 0, f64::EPSILON / 2.0)
            .gives(
                1,
                &[(0.0, PRE, &[0.0]), (0.0, POST, &[1.0]), (1.0, POST, &[1.0])],
            ),
    ]
}

/// Infusions, what stops them, and their summed rates.
fn with_infusions() -> Vec<Fixed> {
    let mut cases = vec![
        still("a cut infusion's end still has rows")
            .window(0.0, 8.0)
            .infusion(1.0, 0, 4.0, 4.0)
            .reset(3.0, 0, 0.0, 0, true)
            .gives(
                4,
                &[
                    (0.0, POST, &[3.0]),
                    (1.0, PRE, &[3.0]),
                    (1.0, POST, &[3.0]),
                    (3.0, PRE, &[5.0]),
                    (3.0, POST, &[0.0]),
                    (5.0, PRE, &[0.0]),
                    (5.0, POST, &[0.0]),
                    (8.0, POST, &[0.0]),
                ],
            ),
        still("a reset that does not stop")
            .window(0.0, 4.0)
            .infusion(0.0, 0, 4.0, 4.0)
            .reset(2.0, 0, 0.0, 0, false)
            .gives(
                2,
                &[
                    (0.0, PRE, &[3.0]),
                    (0.0, POST, &[3.0]),
                    (2.0, PRE, &[5.0]),
                    (2.0, POST, &[0.0]),
                    (4.0, PRE, &[2.0]),
                    (4.0, POST, &[2.0]),
                ],
            ),
        still("a stopping reset at an infusion's start")
            .window(0.0, 2.0)
            .infusion(0.0, 0, 2.0, 2.0)
            .reset(0.0, 0, 1.0, 0, true)
            .gives(
                1,
                &[
                    (0.0, PRE, &[3.0]),
                    (0.0, POST, &[1.0]),
                    (2.0, PRE, &[3.0]),
                    (2.0, POST, &[3.0]),
                ],
            ),
        still("a stopping reset at one infusion's end and another's start")
            .window(0.0, 4.0)
            .infusion(0.0, 0, 2.0, 2.0)
            .reset(2.0, 0, 1.0, 0, true)
            .infusion(2.0, 0, 2.0, 2.0)
            .gives(
                2,
                &[
                    (0.0, PRE, &[3.0]),
                    (0.0, POST, &[3.0]),
                    (2.0, PRE, &[5.0]),
                    (2.0, POST, &[1.0]),
                    (4.0, PRE, &[3.0]),
                    (4.0, POST, &[3.0]),
                ],
            ),
        two("a stopping reset on another target")
            .infusion(0.0, 0, 2.0, 1.0)
            .reset(0.5, 1, 1.0, 0, true)
            .done(6, 2),
        still("an infusion of amount 0")
            .infusion(0.25, 0, 0.0, 0.5)
            .done(6, 3),
        still("an infusion lost in its time's rounding")
            .window(0.0, 2.0)
            .infusion(1.0, 0, 1.0, f64::EPSILON / 2.0)
            .ahead(12),
        still("the least infusion")
            .amounts(&[0.0])
            .window(0.0, f64::from_bits(2))
            .infusion(0.0, 0, f64::from_bits(1), f64::from_bits(1))
            .done(5, 2),
    ];
    // The summed rates are those of the list's order: 1 and twice 2^-53.
    let small = f64::EPSILON / 2.0;
    for (name, amounts, sum) in [
        ("rates from the largest", [1.0, small, small], 1.0),
        (
            "rates from the smallest",
            [small, small, 1.0],
            1.0 + f64::EPSILON,
        ),
    ] {
        let mut case = still(name).amounts(&[0.0]);
        for amount in amounts {
            case = case.infusion(0.0, 0, amount, 1.0);
        }
        cases.push(case.gives(
            1,
            &[
                (0.0, PRE, &[0.0]),
                (0.0, POST, &[0.0]),
                (1.0, PRE, &[sum]),
                (1.0, POST, &[sum]),
            ],
        ));
    }
    cases
}

/// One refusal at a time.
fn refused() -> Vec<Fixed> {
    let p8 = |name, clearance| of(name, clearance, &[1.0], &[], None);
    vec![
        p8("P8, 60 halvings", TWO_59).done(2, 1),
        p8("P8, one more", TWO_59 + 128.0).stopped(21, 1.0, 1),
        p8("the norm overflows", 1e308)
            .window(0.0, 10.0)
            .samples(&[1e-300])
            .stopped(20, 10.0, 2),
        still("P11")
            .window(-1.0, 1.0)
            .reset(-0.0, 0, 1.0, 1, false)
            .reset(0.0, 0, 1.0, 1, false)
            .ahead(12),
        two("orders are used once over all targets")
            .reset(0.5, 0, 1.0, 1, false)
            .reset(0.5, 1, 1.0, 1, false)
            .ahead(12),
        still("a window whose length overflows")
            .window(-MAX, MAX)
            .stopped(3, MAX, 1),
        still("the same behind a reading")
            .window(-MAX, MAX)
            .samples(&[0.0])
            .stopped(3, MAX, 2),
        still("30 ahead of 3")
            .window(-MAX, MAX)
            .samples(&[0.0])
            .propagations(1)
            .stopped(30, MAX, 2),
        p8("30 ahead of 21", TWO_59 + 128.0)
            .propagations(0)
            .stopped(30, 1.0, 1),
        still("no propagations")
            .samples(&[0.5])
            .propagations(0)
            .stopped(30, 0.5, 1),
        still("31 by a reset below 0")
            .reset(0.5, 0, -1.0, 0, false)
            .stopped(31, 0.5, 1),
        still("31 is not made good by the next reset")
            .reset(0.0, 0, -1.0, 0, false)
            .reset(0.0, 0, 1.0, 1, false)
            .stopped(31, 0.0, 0),
        still("31 at -0")
            .window(-1.0, 1.0)
            .reset(-0.0, 0, -1.0, 0, false)
            .stopped(31, -0.0, 1),
        still("31 by a bolus")
            .amounts(&[MAX])
            .bolus(1.0, 0, MAX)
            .stopped(31, 1.0, 1),
        still("31 ahead of the 30 of its interval")
            .amounts(&[MAX])
            .bolus(0.0, 0, MAX)
            .propagations(0)
            .stopped(31, 0.0, 0),
        still("32 has time +0")
            .window(-2.0, 1.0)
            .infusion(-1.0, 0, MAX, 1.0)
            .infusion(-1.0, 0, MAX, 1.0)
            .stopped(32, 0.0, 1),
        still("32 ahead of the 30 of its interval")
            .infusion(0.0, 0, MAX, 1.0)
            .infusion(0.0, 0, MAX, 1.0)
            .propagations(0)
            .stopped(32, 0.0, 0),
        still("22 by rate times duration")
            .window(0.0, 4.0)
            .infusion(0.0, 0, MAX, 4.0)
            .infusion(0.0, 0, MAX, 4.0)
            .stopped(22, 4.0, 1),
        still("22 by an amount")
            .amounts(&[MAX])
            .infusion(0.0, 0, MAX, 1.0)
            .samples(&[f64::EPSILON / 4.0])
            .stopped(22, 1.0, 2),
        still("two equal samples and room for three rows")
            .samples(&[0.5, 0.5])
            .ahead(4)
            .room(|room| (room.times, room.sides, room.values) = (3, 3, 3)),
        two("slices far longer than the rows")
            .bolus(0.5, 1, 1.0)
            .done(4, 2)
            .room(|room| {
                room.times += 1000;
                room.sides += 1000;
                room.values += 3000;
            }),
    ]
}

/// The order of the tests ahead of a run: each case has two that fail.
fn in_order() -> Vec<Fixed> {
    let bad_events = |case: Fixed, count: usize| {
        (0..count).fold(case, |case, _| case.bolus(f64::NAN, 9, f64::NAN))
    };
    let no_kernel = |run: &mut Run| {
        run.cells[0] = 9.0;
        run.rust = None;
    };
    vec![
        bad_events(still("40 ahead of 5"), 193)
            .with(|run| run.words[192 * 6] = 3)
            .ahead(40),
        still("40 by the count of words")
            .with(|run| run.words = vec![0; 5])
            .ahead(40),
        still("40 by an order")
            .reset(0.0, 0, 1.0, 65_536, false)
            .ahead(40),
        still("40 by stops")
            .reset(0.0, 0, 1.0, 0, false)
            .with(|run| run.words[5] = 2)
            .ahead(40),
        bad_events(still("5 by events ahead of 1"), 193)
            .with(no_kernel)
            .ahead(5),
        still("5 by samples ahead of 3")
            .samples(&[9.0; 257])
            .amounts(&[f64::NAN])
            .ahead(5),
        bad_events(still("5 far over the limits"), 1000)
            .samples(&[9.0; 2000])
            .ahead(5),
        bad_events(still("40 by the last of many"), 1000)
            .with(|run| run.words[999 * 6] = u64::MAX)
            .ahead(40),
        still("3 by a hundred amounts")
            .amounts(&[1.0; 100])
            .ahead(3),
        still("1 ahead of 3")
            .with(no_kernel)
            .amounts(&[-1.0])
            .ahead(1),
        still("2 ahead of 3")
            .with(|run| {
                run.cells[5] = f64::INFINITY;
                run.rust = None;
            })
            .amounts(&[])
            .ahead(2),
        still("3 ahead of 13")
            .amounts(&[f64::NAN])
            .bolus(0.0, 0, 1.0)
            .with(|run| run.event_budget = 0)
            .ahead(3),
        still("13 ahead of 10")
            .bolus(0.0, 0, 1.0)
            .with(|run| {
                run.event_budget = 0;
                run.rtol = 0.0;
            })
            .ahead(13),
        still("10 ahead of 11")
            .window(1.0, 1.0)
            .samples(&[2.0])
            .ahead(10),
        still("11 ahead of 12")
            .samples(&[2.0])
            .bolus(2.0, 0, 1.0)
            .ahead(11),
        still("12 ahead of 14")
            .bolus(0.0, 1, 1.0)
            .with(|run| run.output_budget = 0)
            .ahead(12),
        still("14 ahead of 4")
            .with(|run| run.output_budget = 1)
            .ahead(14)
            .room(|room| room.times = 0),
        still("4 ahead of the run")
            .window(-MAX, MAX)
            .ahead(4)
            .room(|room| room.values = 1),
    ]
}

/// The longest runs: 192 infusions and 256 samples, no two times equal, fill
/// all reckoned rows.
fn full() -> Vec<Fixed> {
    let mut case = of(
        "192 infusions and 256 samples",
        4.2,
        &[12.0, 25.5, 7.25],
        &[3.5, 1.75],
        Some(0.9),
    )
    .window(0.0, 1000.0);
    for i in 0..192 {
        let time = 1.0 + 2.0 * i as f64;
        case = case.infusion(time, i % 4, 1.0 + i as f64, 400.0 - i as f64 / 4.0);
    }
    let samples: Vec<f64> = (0..256).map(|i| 0.0625 + 3.5 * i as f64).collect();
    vec![case.samples(&samples).done(1026, 641)]
}

/// A run of few rows with slices of many lengths: once done, once stopped, once
/// refused ahead.
pub fn lengths() -> Vec<Run> {
    let mut runs = vec![];
    let base = two("lengths").bolus(0.5, 0, 1.0).samples(&[0.25, 0.25]);
    let (rows, n) = (base.run.reckoned(), base.run.n());
    for times in [0, 1, rows - 2, rows - 1, rows, rows + 1, rows + 2] {
        for sides in [0, rows - 2, rows - 1, rows, rows + 1, rows + 2] {
            for more in 0..=4 {
                let mut run = base.run.clone();
                run.room = Room {
                    times,
                    sides,
                    values: rows * n - 2 + more,
                };
                runs.push(run);
            }
            for values in [0, rows, rows * n - n, rows * n + n] {
                let mut run = base.run.clone();
                run.room = Room {
                    times,
                    sides,
                    values,
                };
                runs.push(run);
            }
        }
    }
    let done = runs.len();
    for at in 0..2 * done {
        let mut run = runs[at % done].clone();
        if at < done {
            run.propagations = 2;
        } else {
            run.end = f64::NAN;
        }
        runs.push(run);
    }
    runs
}
