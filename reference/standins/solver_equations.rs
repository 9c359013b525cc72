//! Stand-in for the adapter of equations to the numerical solver, which the
//! analytic path does not reach.
use std::marker::PhantomData;

pub(crate) struct Equations<M, F, G>(PhantomData<(M, F, G)>);

impl<M, F, G> Equations<M, F, G>
where
    M: diffsol::Matrix<T = f64>,
    F: Fn(&[f64], f64, &mut [f64]),
    G: Fn(&[f64], f64, &[f64], &mut [f64]),
{
    pub(crate) fn new(
        _initial: Vec<f64>,
        _pattern: Option<Vec<(usize, usize)>>,
        _evaluate: F,
        _jacobian_action: G,
    ) -> Result<Self, diffsol::DiffsolError> {
        Err(diffsol::DiffsolError(
            "no numerical solver is built in".into(),
        ))
    }
}
