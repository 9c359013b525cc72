//! Fixed cases: the bench values P1, P2, P3 and P8 of document 01, and inputs
//! that tell its readings apart.
use crate::draw::{Parameters, TWO_59};
use crate::rule::{Reading, RIGHT};

/// A call of `advance` on the kernel of a case.
pub struct Call {
    pub amounts: Vec<f64>,
    pub rates: Vec<f64>,
    pub duration: f64,
    pub room: usize,
}

/// A case, and what must hold of the Rust's answer to it.
pub struct Fixed {
    pub name: &'static str,
    pub given: Parameters,
    /// None: the case is about `new` alone.
    pub call: Option<Call>,
    pub reply: u64,
    pub halvings: Option<u32>,
    /// The n by n rates, or the amounts, where they are known.
    pub answer: Option<Vec<f64>>,
    /// Wrong readings that give other amounts.
    pub tells: Vec<Reading>,
    /// -(CL + q..)/V0 is another diagonal.
    pub tells_diagonal: bool,
}

fn new(
    name: &'static str,
    clearance: f64,
    volumes: &[f64],
    exchange: &[f64],
    absorption: Option<f64>,
) -> Fixed {
    Fixed {
        name,
        given: Parameters {
            clearance,
            volumes: volumes.to_vec(),
            exchange: exchange.to_vec(),
            depot: absorption.is_some(),
            absorption: absorption.unwrap_or(f64::NAN),
        },
        call: None,
        reply: 0,
        halvings: None,
        answer: None,
        tells: vec![],
        tells_diagonal: false,
    }
}

fn one(name: &'static str, clearance: f64) -> Fixed {
    new(name, clearance, &[1.0], &[], None)
}

impl Fixed {
    fn advance(self, amounts: &[f64], rates: &[f64], duration: f64, room: usize) -> Fixed {
        let call = Call {
            amounts: amounts.to_vec(),
            rates: rates.to_vec(),
            duration,
            room,
        };
        Fixed {
            call: Some(call),
            ..self
        }
    }

    fn gives(self, answer: &[f64]) -> Fixed {
        Fixed {
            answer: Some(answer.to_vec()),
            ..self
        }
    }
}

pub fn cases() -> Vec<Fixed> {
    let plus_zero = Reading {
        sum_from_plus_zero: true,
        ..RIGHT
    };
    let at_once = Reading {
        scaled_at_once: true,
        ..RIGHT
    };
    let block_first = Reading {
        block_times_term: true,
        ..RIGHT
    };
    let pairs_apart = Reading {
        pairs_apart: true,
        ..RIGHT
    };
    let mut cases = vec![
        new("P1", 2.0, &[4.0, 8.0], &[1.0], Some(0.5)).gives(&[
            -0.5, 0.0, 0.0, //
            0.5, -0.75, 0.125, //
            0.0, 0.25, -0.125,
        ]),
        one("P2", 0.0).advance(&[3.0], &[2.0], 0.5, 1).gives(&[4.0]),
        one("P3", 0.0).advance(&[3.0], &[2.0], 0.0, 1).gives(&[3.0]),
        Fixed {
            reply: 4,
            ..one("4 is ahead of duration 0", 0.0).advance(&[3.0], &[2.0], 0.0, 0)
        },
        Fixed {
            halvings: Some(60),
            ..one("P8, 60 halvings", TWO_59).advance(&[3.0], &[2.0], 1.0, 1)
        },
        Fixed {
            halvings: Some(61),
            reply: 21,
            ..one("P8, one more", TWO_59 + 128.0).advance(&[3.0], &[2.0], 1.0, 1)
        },
        Fixed {
            tells_diagonal: true,
            ..new(
                "diagonal by single quotients",
                0.1,
                &[0.7, 1.0, 1.0],
                &[0.2, 0.3],
                None,
            )
        },
        // An exchange of 5 ulp goes 5, 2, 1, 0; scaled at once it would stay 1.
        Fixed {
            halvings: Some(3),
            tells: vec![at_once],
            ..new(
                "halved step by step",
                2.0,
                &[1.0, 1.0],
                &[f64::from_bits(5)],
                None,
            )
            .advance(&[2.0_f64.powi(1000), 0.0], &[0.0, 0.0], 1.0, 3)
        },
        Fixed {
            tells: vec![block_first, pairs_apart],
            ..new(
                "term times block, each pair first",
                1.6,
                &[6.6, 7.4, 1.6],
                &[2.5, 5.5],
                None,
            )
            .advance(&[1.6, 5.6, 8.7], &[9.0, 3.0, 0.7], 8.1, 6)
        },
        // By rounding, the amounts of a closed system grow to 1.8e9.
        new("mass grows", 0.0, &[1.0, 1.0], &[1.0], None).advance(
            &[1.0, 0.0],
            &[0.0, 0.0],
            2.0_f64.powi(56),
            2,
        ),
    ];
    // Amounts and rates all -0: a sum from -0 gives -0 back.
    for n in 1..=4 {
        let count = if n == 4 { 3 } else { n };
        let zeros = vec![-0.0; n];
        cases.push(Fixed {
            tells: vec![plus_zero],
            ..new(
                "-0 comes back",
                2.0,
                &[4.0, 8.0, 2.0][..count],
                &[1.0, 3.0][..count - 1],
                (n == 4).then_some(0.5),
            )
            .advance(&zeros, &zeros, 1.5, n)
            .gives(&zeros)
        });
    }
    cases
}
