//! Stand-ins for the algebra crate's quota and failure types: nothing ever stops.

/// Why a run of the original would stop. None of these occurs inside the limits.
#[derive(Clone, Copy, Debug, PartialEq, Eq)]
pub enum Stop {
    Allocation,
    InvalidProgram,
}

#[derive(Clone, Copy, Debug, PartialEq, Eq)]
pub enum Failure<E> {
    Stopped(Stop),
    Quota(E),
}

impl<E> From<Stop> for Failure<E> {
    fn from(stop: Stop) -> Self {
        Self::Stopped(stop)
    }
}

pub trait Quota {
    type Error;
}
