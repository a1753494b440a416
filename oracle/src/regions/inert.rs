//! Stand-ins for what surrounds the rows in the original's regions.rs. Only
//! `Meter` and `Adjacency` do anything, as document 01 says.

use std::convert::Infallible;
use std::marker::PhantomData;

use super::thresholds::Thresholds;
use crate::{Failure, Quota};

/// Never stops. Visits of a search are counted here, where they are taken.
pub(in crate::regions) struct Meter<'q, Q: Quota + ?Sized> {
    pub visits: u64,
    pub cut_short: bool,
    quota: PhantomData<&'q mut Q>,
}

impl<Q: Quota + ?Sized> Meter<'_, Q> {
    pub fn new() -> Self {
        Self { visits: 0, cut_short: false, quota: PhantomData }
    }

    pub fn tick(&mut self) -> Result<(), Failure<Q::Error>> {
        Ok(())
    }

    /// False at remaining 0, else one is taken.
    pub fn tick_within(&mut self, remaining: &mut u64) -> Result<bool, Failure<Q::Error>> {
        if *remaining == 0 {
            self.cut_short = true;
            return Ok(false);
        }
        *remaining -= 1;
        self.visits += 1;
        Ok(true)
    }
}

/// A quota that refuses nothing.
pub(in crate::regions) struct Free;

impl Quota for Free {
    type Error = Infallible;
}

/// The index: of the original's many fields only the rows remain.
pub(in crate::regions) struct Narrower {
    pub thresholds: Thresholds,
}

pub(in crate::regions) trait Count {}

impl Count for u8 {}

pub(in crate::regions) trait ReadingClass {
    type Learning<'a>;
}

pub(in crate::regions) struct AnswerSetsSought;

impl ReadingClass for AnswerSetsSought {
    type Learning<'a> = ();
}

#[derive(Debug, Default)]
pub(in crate::regions) struct Counters<C>(PhantomData<C>);

/// Chains are never passed.
#[derive(Clone, Debug)]
pub(in crate::regions) enum Chain {}

pub(in crate::regions) mod extrema {
    pub(in crate::regions) struct Extrema;
}

pub(in crate::regions) mod support {
    #[derive(Debug, Default)]
    pub(in crate::regions) struct Progress;
}

pub(in crate::regions) mod witnesses {
    #[derive(Debug, Default)]
    pub(in crate::regions) struct Scratch;

    impl Scratch {
        pub fn clear(&mut self) {}
    }
}

/// The founded bookkeeping goes.
pub(in crate::regions) mod founded {
    #[derive(Debug, Default)]
    pub(in crate::regions) struct Scratch;

    impl Scratch {
        pub fn record_false(&mut self, _: usize) {}

        pub fn may_affect_body(&self, _: usize) -> bool {
            false
        }
    }
}

pub(in crate::regions) mod adjacency {
    use crate::Stop;

    /// All lists in one, edges in the order given, and where the list of each source ends.
    #[derive(Clone, Debug)]
    pub(in crate::regions) struct Adjacency {
        targets: Vec<usize>,
        ends: Vec<usize>,
    }

    impl Adjacency {
        pub fn build(
            sources: usize,
            edges: impl Iterator<Item = (usize, usize)> + Clone,
        ) -> Result<Self, Stop> {
            let mut ends = vec![0; sources + 1];
            for (source, _) in edges.clone() {
                ends[source + 1] += 1;
            }
            for source in 0..sources {
                ends[source + 1] += ends[source];
            }
            let mut targets = vec![0; ends[sources]];
            // Each list grows from where the one before it ends to its own end.
            for (source, target) in edges {
                targets[ends[source]] = target;
                ends[source] += 1;
            }
            Ok(Self { targets, ends })
        }
    }

    impl std::ops::Index<usize> for Adjacency {
        type Output = [usize];
        fn index(&self, source: usize) -> &[usize] {
            let start = if source == 0 { 0 } else { self.ends[source - 1] };
            &self.targets[start..self.ends[source]]
        }
    }
}
