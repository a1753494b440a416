//! Stand-in: capacity remains outside, so there is never a capacity index.

use zetesis_algebra::Stop;

use super::{Adjacency, Incidence, Row};
use crate::Theory;
use crate::regions::{Chain, extrema::Extrema};

#[path = "view.rs"]
mod view;

#[derive(Clone, Debug)]
pub(super) enum Capacity {}

impl Capacity {
    pub(super) fn prepare(
        _: &Theory,
        _: &[Row],
        _: Option<&Adjacency>,
        _: &[Incidence],
        _: &[Chain],
        _: &Extrema,
    ) -> Result<Option<Self>, Stop> {
        Ok(None)
    }

    pub(super) fn has_row(&self, _: usize) -> bool {
        match *self {}
    }

    pub(super) fn retained_bytes(&self) -> u128 {
        match *self {}
    }
}
