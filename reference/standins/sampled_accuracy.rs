//! Stand-in for the refinement of numerical solutions, which the analytic path
//! does not reach.
use crate::Error;

pub(crate) fn refine_sampled_trajectory(
    _relative: f64,
    _absolute: &[f64],
    _attempts: usize,
    _first_factor: f64,
    _solve: &mut impl FnMut(f64) -> Result<Vec<Vec<f64>>, Error>,
    refuse: impl Fn(&str) -> Error,
) -> Result<(), Error> {
    Err(refuse("no numerical solver is built in"))
}
