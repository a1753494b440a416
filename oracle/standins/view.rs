//! A window for listings: reads private fields of the original, changes none.

use super::super::{Row, State, Thresholds};
use crate::Theory;

impl State {
    /// known, possible, lower, upper
    pub(in crate::regions) fn figures(&self) -> (i128, i128, i128, Option<i128>) {
        (self.known, self.possible, self.lower, self.upper)
    }

    /// sure guard, never guard, true term, false term
    pub(in crate::regions) fn cursors(&self) -> [usize; 4] {
        [self.sure_guard, self.never_guard, self.true_term, self.false_term]
    }
}

impl Row {
    pub(in crate::regions) fn total(&self) -> i128 {
        self.total
    }
}

impl Thresholds {
    pub(in crate::regions) fn row_of(&self, theory: &Theory, node: usize) -> usize {
        self.row(theory, node)
    }

    pub(in crate::regions) fn links(&self, row: usize) -> &[usize] {
        self.related(row)
    }

    /// (row, weight) of each term that has this condition, in the order visited.
    pub(in crate::regions) fn incidences_of(&self, node: usize) -> Vec<(usize, i128)> {
        let edges = self.condition(node).iter();
        edges.map(|&edge| (self.incidences[edge].row, self.incidences[edge].weight)).collect()
    }
}
