//! Stand-in for the crate diffsol: the names and signatures that the sources
//! need to pass the type check. The analytic path calls none of this. Each
//! constructor of a solver returns an error, so no solver value exists and the
//! methods on one are unreachable.
use std::marker::PhantomData;
use std::ops::MulAssign;

/// The one error of the stand-in.
#[derive(Clone, Debug)]
pub struct DiffsolError(pub String);

impl std::fmt::Display for DiffsolError {
    fn fmt(&self, f: &mut std::fmt::Formatter<'_>) -> std::fmt::Result {
        f.write_str(&self.0)
    }
}

fn absent() -> DiffsolError {
    DiffsolError("no numerical solver is built in".into())
}

/// A context of a matrix or a vector.
#[derive(Clone, Debug, Default)]
pub struct Context;

/// A factor for a vector.
pub struct Scale(pub f64);

pub fn scale(factor: f64) -> Scale {
    Scale(factor)
}

pub trait Vector: Clone + MulAssign<Scale> {
    fn clone_as_vec(&self) -> Vec<f64>;
}

pub trait VectorRef<V> {}

pub trait DefaultDenseMatrix {
    type T;
    type C;
}

pub trait Matrix {
    type T;
    type C: Clone + Default;
    type V: Vector;
}

pub trait LinearSolver<M> {}

pub mod matrix {
    pub trait MatrixRef<M> {}
}

/// The vector of both matrix types.
#[derive(Clone, Debug)]
pub struct StandInVec(pub Vec<f64>);

impl Vector for StandInVec {
    fn clone_as_vec(&self) -> Vec<f64> {
        self.0.clone()
    }
}

impl MulAssign<Scale> for StandInVec {
    fn mul_assign(&mut self, factor: Scale) {
        for value in &mut self.0 {
            *value *= factor.0;
        }
    }
}

impl DefaultDenseMatrix for StandInVec {
    type T = f64;
    type C = Context;
}

impl VectorRef<StandInVec> for &StandInVec {}

pub struct NalgebraMat<T>(PhantomData<T>);
pub struct NalgebraLU<T>(PhantomData<T>);
pub struct FaerSparseMat<T>(PhantomData<T>);
pub struct FaerSparseLU<T>(PhantomData<T>);

impl Matrix for NalgebraMat<f64> {
    type T = f64;
    type C = Context;
    type V = StandInVec;
}

impl Matrix for FaerSparseMat<f64> {
    type T = f64;
    type C = Context;
    type V = StandInVec;
}

impl matrix::MatrixRef<NalgebraMat<f64>> for &NalgebraMat<f64> {}
impl matrix::MatrixRef<FaerSparseMat<f64>> for &FaerSparseMat<f64> {}
impl LinearSolver<NalgebraMat<f64>> for NalgebraLU<f64> {}
impl LinearSolver<FaerSparseMat<f64>> for FaerSparseLU<f64> {}

/// Collects nothing and builds no problem.
pub struct OdeBuilder<M>(PhantomData<M>);

impl<M: Matrix<T = f64>> OdeBuilder<M> {
    #[allow(clippy::new_without_default)]
    pub fn new() -> Self {
        OdeBuilder(PhantomData)
    }

    pub fn t0(self, _time: f64) -> Self {
        self
    }

    pub fn rtol(self, _tolerance: f64) -> Self {
        self
    }

    pub fn atol(self, _tolerances: impl Iterator<Item = f64>) -> Self {
        self
    }

    pub fn build_from_eqn<E>(self, _equations: E) -> Result<OdeSolverProblem<M, E>, DiffsolError> {
        Err(absent())
    }
}

pub struct OdeSolverProblem<M: Matrix, E> {
    pub rtol: f64,
    pub atol: M::V,
    pub equations: E,
}

impl<M: Matrix<T = f64>, E> OdeSolverProblem<M, E> {
    pub fn bdf<LS: LinearSolver<M>>(&self) -> Result<Bdf<M, LS>, DiffsolError> {
        Err(absent())
    }

    pub fn esdirk34<LS: LinearSolver<M>>(&self) -> Result<Sdirk<M, E, LS>, DiffsolError> {
        Err(absent())
    }

    pub fn tr_bdf2<LS: LinearSolver<M>>(&self) -> Result<Sdirk<M, E, LS>, DiffsolError> {
        Err(absent())
    }

    pub fn tsit45(&self) -> Result<ExplicitRk<M, E>, DiffsolError> {
        Err(absent())
    }
}

/// A type without values.
enum Never {}

pub struct Bdf<M, LS>(Never, PhantomData<(M, LS)>);
pub struct Sdirk<M, E, LS>(Never, PhantomData<(M, E, LS)>);
pub struct ExplicitRk<M, E>(Never, PhantomData<(M, E)>);

pub struct Config {
    pub minimum_timestep: f64,
    pub maximum_newton_fails: usize,
}

pub struct State<V> {
    pub t: f64,
    pub h: f64,
    pub y: V,
}

pub trait OdeSolverMethod {
    type V: Vector;

    fn config_mut(&mut self) -> &mut Config {
        unreachable!()
    }

    fn set_stop_time(&mut self, _time: f64) -> Result<(), DiffsolError> {
        unreachable!()
    }

    fn state(&self) -> State<Self::V> {
        unreachable!()
    }

    fn step(&mut self) -> Result<(), DiffsolError> {
        unreachable!()
    }

    fn interpolate(&self, _time: f64) -> Result<Self::V, DiffsolError> {
        unreachable!()
    }
}

impl<M: Matrix, LS> OdeSolverMethod for Bdf<M, LS> {
    type V = M::V;
}

impl<M: Matrix, E, LS> OdeSolverMethod for Sdirk<M, E, LS> {
    type V = M::V;
}

impl<M: Matrix, E> OdeSolverMethod for ExplicitRk<M, E> {
    type V = M::V;
}
