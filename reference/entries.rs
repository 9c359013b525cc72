//! What the comparison and the benchmark share: the C interface under test,
//! the numbers of the Rust's refusals, and a kernel of the Rust as the cells
//! of the C interface.
use qspquest_modeling::linear_pk::LinearPk;
use qspquest_modeling::{Error, ErrorCode};

/// Cells of a kernel: volume count, depot, 3 volumes, 4 by 4 rates.
pub const KERNEL: usize = 21;
/// Cells of a kernel with its 4 amounts.
pub const BOUND: usize = 25;
/// The place of the first rate in a kernel.
pub const RATES: usize = 5;

// Each slice is a pointer and a length; each reply is 0 or the refusal number
// of document 01.
extern "C" {
    pub fn linear_pk_new(
        clearance: f64,
        volumes: *const f64,
        volumes_len: usize,
        exchange: *const f64,
        exchange_len: usize,
        depot: bool,
        absorption: f64,
        kernel: *mut f64,
        kernel_len: usize,
    ) -> u64;
    pub fn linear_pk_state_count(kernel: *const f64, kernel_len: usize) -> u64;
    pub fn linear_pk_advance(
        kernel: *const f64,
        kernel_len: usize,
        amounts: *const f64,
        amounts_len: usize,
        rates: *const f64,
        rates_len: usize,
        duration: f64,
        result: *mut f64,
        result_len: usize,
    ) -> u64;
    pub fn linear_pk_concentrations(
        kernel: *const f64,
        kernel_len: usize,
        amounts: *const f64,
        amounts_len: usize,
        result: *mut f64,
        result_len: usize,
    ) -> u64;
    pub fn linear_pk_bind(
        kernel: *const f64,
        kernel_len: usize,
        initial: *const f64,
        initial_len: usize,
        bound: *mut f64,
        bound_len: usize,
    ) -> u64;
}

/// An entry of the Rust that this comparison calls.
#[derive(Clone, Copy, Debug)]
pub enum Entry {
    New,
    Advance,
    Concentrations,
    Bind,
}

/// The number of a refusal by the Rust. The kind decides, but for `advance`,
/// where 20 and 22 are both `Domain` and the text tells them apart. The Rust
/// has no counterpart to 4, nor to 1 and 2 for cells that are no kernel: its
/// results are vectors of their own and its kernels come from `new` alone.
pub fn number(entry: Entry, error: &Error) -> u64 {
    match (entry, error.code) {
        // The parameters are outside the list.
        (Entry::New, ErrorCode::InvalidInput) => 1,
        // A rate is not finite.
        (Entry::New, ErrorCode::Domain) => 2,
        // A wrong count, a value not finite or below 0.
        (Entry::Advance | Entry::Concentrations | Entry::Bind, ErrorCode::InvalidInput) => 3,
        // The norm is not finite.
        (Entry::Advance, ErrorCode::Domain)
            if error.message == "linear PK interval matrix overflow" =>
        {
            20
        }
        // More than 60 halvings.
        (Entry::Advance, ErrorCode::Unsupported) => 21,
        // The exponential, rate times duration, or an amount.
        (Entry::Advance, ErrorCode::Domain) => 22,
        // A concentration is not finite.
        (Entry::Concentrations, ErrorCode::Domain) => 23,
        _ => panic!("a refusal without a number: {entry:?} {error:?}"),
    }
}

/// The cells of a kernel made by the Rust. Its fields are private; its Debug
/// text has them all, and the text of a double gives its bits back, -0 included.
pub fn cells_of(kernel: &LinearPk) -> [f64; KERNEL] {
    let text = format!("{kernel:?}");
    let field = |name: &str| {
        text.find(name)
            .map(|at| at + name.len())
            .expect("a field in the Debug text")
    };
    let numbers = |part: &str| -> Vec<f64> {
        part.split(|c| "[], ".contains(c))
            .filter(|word| !word.is_empty())
            .map(|word| word.parse().expect("a double in the Debug text"))
            .collect()
    };
    let volumes_at = field("volumes: ");
    let depot_at = field(", depot: ");
    let matrix = numbers(&text[field("matrix: ")..volumes_at - "volumes: ".len()]);
    let volumes = numbers(&text[volumes_at..depot_at - ", depot: ".len()]);
    let depot = text[depot_at..].starts_with("true");
    let n = kernel.state_count();
    assert_eq!(
        (matrix.len(), volumes.len() + usize::from(depot)),
        (n * n, n)
    );

    let mut cells = [0.0; KERNEL];
    cells[0] = volumes.len() as f64;
    cells[1] = f64::from(u8::from(depot));
    cells[2..2 + volumes.len()].copy_from_slice(&volumes);
    for i in 0..n {
        for j in 0..n {
            cells[RATES + 4 * i + j] = matrix[n * i + j];
        }
    }
    cells
}
