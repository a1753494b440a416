//! Stand-in: connectives remain outside, so there is never such an index.

use std::num::NonZeroUsize;

use zetesis_algebra::Stop;

use super::Row;
use crate::regions::{Chain, extrema::Extrema};

#[derive(Clone, Debug)]
pub(super) enum Connectives {}

impl Connectives {
    pub(super) fn prepare(
        _: &[Row],
        _: &[Chain],
        _: &[Option<NonZeroUsize>],
        _: &Extrema,
        _: bool,
    ) -> Result<Option<Self>, Stop> {
        Ok(None)
    }

    pub(super) fn retained_bytes(&self) -> u128 {
        match *self {}
    }
}
