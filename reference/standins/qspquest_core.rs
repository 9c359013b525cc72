//! Stand-in for the crate qspquest-core: the types that the sources under test
//! name, with the fields and methods that they use. Every field is public, so
//! that a test can build each value.

/// What kind of refusal an error is.
#[derive(Clone, Copy, Debug, PartialEq, Eq)]
pub enum ErrorCode {
    InvalidInput,
    Domain,
    Unsupported,
    Invariant,
    Solver,
    WorkBudget,
    OutputBudget,
}

/// A refusal: its kind, its text, and the time where a run stopped.
#[derive(Clone, Debug, PartialEq)]
pub struct Error {
    pub code: ErrorCode,
    pub message: String,
    pub time: Option<f64>,
}

impl Error {
    pub fn new(code: ErrorCode, message: impl Into<String>) -> Self {
        Error {
            code,
            message: message.into(),
            time: None,
        }
    }
}

/// A text alone is invalid input without a time.
impl From<&str> for Error {
    fn from(message: &str) -> Self {
        Error::new(ErrorCode::InvalidInput, message)
    }
}

impl From<String> for Error {
    fn from(message: String) -> Self {
        Error::new(ErrorCode::InvalidInput, message)
    }
}

impl std::fmt::Display for Error {
    fn fmt(&self, f: &mut std::fmt::Formatter<'_>) -> std::fmt::Result {
        write!(f, "{:?}: {}", self.code, self.message)
    }
}

impl std::error::Error for Error {}

/// Whether a reset stops the running infusions of its target.
#[derive(Clone, Copy, Debug, PartialEq, Eq)]
pub enum ActiveInputs {
    Continue,
    StopTarget,
}

/// An event of a protocol.
#[derive(Clone, Debug, PartialEq)]
pub enum Event {
    Bolus {
        time: f64,
        target: usize,
        amount: f64,
    },
    Infusion {
        time: f64,
        target: usize,
        amount: f64,
        duration: f64,
    },
    Reset {
        time: f64,
        target: usize,
        value: f64,
        order: u16,
        active_inputs: ActiveInputs,
    },
}

impl Event {
    pub fn time(&self) -> f64 {
        match self {
            Event::Bolus { time, .. }
            | Event::Infusion { time, .. }
            | Event::Reset { time, .. } => *time,
        }
    }

    pub fn target(&self) -> usize {
        match self {
            Event::Bolus { target, .. }
            | Event::Infusion { target, .. }
            | Event::Reset { target, .. } => *target,
        }
    }

    /// The amount of a dose; a reset has none.
    pub fn amount(&self) -> Option<f64> {
        match self {
            Event::Bolus { amount, .. } | Event::Infusion { amount, .. } => Some(*amount),
            Event::Reset { .. } => None,
        }
    }
}

/// Limits on the work of a run.
#[derive(Clone, Copy, Debug, PartialEq, Eq)]
pub struct Budgets {
    pub solver_callbacks: u64,
    pub events: usize,
    pub output_values: usize,
}

/// Large limits. A comparison names its budgets and does not rely on these.
impl Default for Budgets {
    fn default() -> Self {
        Budgets {
            solver_callbacks: 1_000_000,
            events: 100_000,
            output_values: 10_000_000,
        }
    }
}

/// The window, its tolerances, the samples and the events.
#[derive(Clone, Debug, PartialEq)]
pub struct Protocol {
    pub start: f64,
    pub end: f64,
    pub rtol: f64,
    pub atol: f64,
    pub samples: Vec<f64>,
    pub events: Vec<Event>,
}

/// A row of a run: its time, "pre" or "post", and the state.
#[derive(Clone, Debug, PartialEq)]
pub struct Sample {
    pub time: f64,
    pub side: String,
    pub values: Vec<f64>,
}

pub mod run {
    /// The numerical methods that the sources name.
    #[derive(Clone, Copy, Debug, PartialEq, Eq)]
    pub enum Solver {
        DiffsolBdf,
        DiffsolEsdirk34,
        DiffsolTrBdf2,
        DiffsolTsit45,
        DiffsolRosenbrock23,
        DiffsolRodas5p,
        AnalyticLinearPk,
    }
}
