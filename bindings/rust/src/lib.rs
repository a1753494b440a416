//! The threshold planner: a job file in, forced nodes, row figures and answers out, or that no layout is left.
//!
//! ```
//! use planner::{Job, Planner, Value};
//!
//! // Node 1 holds exactly if 3 times node 0 reaches 2; it is marked sure.
//! let mut job = Job::new(2);
//! job.threshold(1, 2).term(0, 3);
//! job.seal().mark_sure(1).settle();
//!
//! let mut planner = Planner::new();
//! let plan = planner.plan(job.as_bytes());
//! assert_eq!(plan.refusal(), None);
//! assert!(!plan.contradicted());
//! assert_eq!(plan.node(0), Some(Value::Sure));
//! ```
//!
//! What the planner does is proved for every input, refused and damaged ones included; see the repository's README. docs/FORMAT.md there has
//! the job file, record by record, and the listing, line by line.

#![deny(missing_docs)]

mod job;
mod raw;

use std::fmt;

pub use job::Job;
use raw::{Given, Work};

/// The version of the linked library, which is that of this crate if both are of one repository.
#[must_use]
pub fn version() -> &'static str {
    raw::version().to_str().unwrap_or_default()
}

/// A work area, used again for each file; one thread uses it at a time.
pub struct Planner {
    work: Work,
    text: Vec<u8>,
}

impl Planner {
    /// A work area of some 450 KB.
    #[must_use]
    pub fn new() -> Self {
        Self { work: Work::new(), text: Vec::new() }
    }

    /// Runs a whole job file. Nothing of an earlier file is left.
    pub fn plan<'a>(&'a mut self, input: &'a [u8]) -> Plan<'a> {
        let given = raw::run(input, &mut self.work);
        Plan { given, work: &self.work, input }
    }

    /// The same, and the file's listing. It does not show every contradiction: ask [`Plan::contradicted`].
    pub fn plan_listed<'a>(&'a mut self, input: &'a [u8]) -> (Plan<'a>, &'a str) {
        self.text.resize(raw::LISTING, 0);
        let given = raw::run(input, &mut self.work);
        let listed = raw::list(input, &mut self.text);
        // A listing has only plain letters.
        let text = std::str::from_utf8(&self.text[..listed]).unwrap_or_default();
        (Plan { given, work: &self.work, input }, text)
    }
}

impl Default for Planner {
    fn default() -> Self {
        Self::new()
    }
}

impl fmt::Debug for Planner {
    fn fmt(&self, out: &mut fmt::Formatter<'_>) -> fmt::Result {
        out.debug_struct("Planner").finish_non_exhaustive()
    }
}

/// What came of a file. Its nodes are those of every layout only if no layout was ruled out and nothing refused: ask [`Plan::forced`], or
/// [`Plan::contradicted`] and [`Plan::refusal`] first.
#[derive(Clone, Copy)]
pub struct Plan<'a> {
    given: Given,
    work: &'a Work,
    input: &'a [u8],
}

impl fmt::Debug for Plan<'_> {
    fn fmt(&self, out: &mut fmt::Formatter<'_>) -> fmt::Result {
        let decided = self.nodes().enumerate().filter(|(_, value)| *value != Value::Undecided);
        out.debug_struct("Plan")
            .field("refusal", &self.refusal())
            .field("contradicted", &self.contradicted())
            .field("unsettled_marks", &self.unsettled_marks())
            .field("answers", &self.answers().collect::<Vec<_>>())
            .field("nodes", &self.given.nodes)
            .field("decided", &decided.collect::<Vec<_>>())
            .field("rows", &self.rows().collect::<Vec<_>>())
            .finish()
    }
}

/// What is known of a node.
#[derive(Clone, Copy, Debug, PartialEq, Eq, Hash)]
pub enum Value {
    /// It is true in every layout that agrees with the marks.
    Sure,
    /// It is false in every such layout.
    Never,
    /// Nothing was found out about it.
    Undecided,
}

/// What is known of a row's sum.
#[derive(Clone, Copy, Debug, PartialEq, Eq, Hash)]
#[non_exhaustive]
pub struct Row {
    /// The weights of its terms that are sure, as far as that is worked out.
    pub known: i64,
    /// The weights of its terms that are not never, as far as that is worked out.
    pub possible: i64,
    /// The sum is at least this.
    pub lower: i64,
    /// The sum is below this, if there is such a limit.
    pub upper: Option<i64>,
}

/// What a record did, the strongest last.
#[derive(Clone, Copy, Debug, PartialEq, Eq, PartialOrd, Ord, Hash)]
pub enum Step {
    /// Nothing new.
    Unchanged,
    /// A node was decided, or a bound moved from one row to another.
    Changed,
    /// No layout agrees with the marks.
    Contradiction,
}

/// The answer of a settle, or of a sift with the visits of its last search.
#[derive(Clone, Copy, Debug, PartialEq, Eq, Hash)]
#[non_exhaustive]
pub enum Answer {
    /// What a settle did.
    Settle(Step),
    /// What a sift did.
    #[non_exhaustive]
    Sift {
        /// The answer.
        step: Step,
        /// How many steps its last search took, 0 if it had none.
        visits: u16,
    },
}

/// Why a record was refused, by the numbers of docs/FORMAT.md.
#[derive(Clone, Copy, Debug, PartialEq, Eq, Hash)]
#[non_exhaustive]
pub enum Reason {
    /// The input ends inside the record.
    CutOff = 1,
    /// There is no such kind of record.
    UnknownKind = 2,
    /// The record is not in its turn.
    OutOfTurn = 3,
    /// The record is beyond a limit.
    TooMany = 4,
    /// The job has no such node.
    NoSuchNode = 5,
    /// The threshold's node is not above the one before.
    NotRising = 6,
    /// The bound is outside -2^52 to 2^52.
    BoundOutside = 7,
    /// The mark's value is neither 0 nor 1.
    NoValue = 8,
    /// An earlier record found a contradiction.
    Contradicted = 9,
    /// The input has more than 65,536 bytes.
    TooLong = 10,
}

/// The record at this offset was refused; what the records before it did stays.
#[derive(Clone, Copy, Debug, PartialEq, Eq, Hash)]
pub struct Refusal {
    /// Why.
    pub reason: Reason,
    /// Where the record begins, in bytes.
    pub offset: usize,
}

/// Why nodes of a plan are not to be used.
#[derive(Clone, Copy, Debug, PartialEq, Eq, Hash)]
#[non_exhaustive]
pub enum Failure {
    /// No layout agrees with the marks.
    Contradicted,
    /// A record was refused.
    Refused(Refusal),
    /// So many marks come after the last settle or sift: what they force, and whether a layout is left, is not worked out.
    Unsettled(usize),
}

impl Plan<'_> {
    /// The nodes that are sure or never, rising, where that can be relied on.
    ///
    /// # Errors
    /// If no layout is left, a record was refused or marks wait for a settle; the first of these that applies.
    pub fn forced(&self) -> Result<impl Iterator<Item = (usize, Value)> + '_, Failure> {
        if self.contradicted() {
            return Err(Failure::Contradicted);
        }
        if let Some(refusal) = self.refusal() {
            return Err(Failure::Refused(refusal));
        }
        match self.unsettled_marks() {
            0 => Ok(self.nodes().enumerate().filter(|(_, value)| *value != Value::Undecided)),
            marks => Err(Failure::Unsettled(marks)),
        }
    }

    /// Whether no layout is left: a seal, mark, settle or sift found a contradiction.
    #[must_use]
    pub fn contradicted(&self) -> bool {
        self.last() == Step::Contradiction
    }

    /// How many marks were taken after the last settle or sift: what they force, and whether a layout is left, is not worked out.
    #[must_use]
    pub fn unsettled_marks(&self) -> usize {
        job::unsettled_marks(&self.input[..self.given.at])
    }

    /// None if every record was taken.
    #[must_use]
    pub fn refusal(&self) -> Option<Refusal> {
        let reason = Reason::by_number(self.given.refused)?;
        Some(Refusal { reason, offset: self.given.at })
    }

    /// Whether a seal was taken.
    #[must_use]
    pub fn sealed(&self) -> bool {
        self.given.sealed != 0
    }

    /// What the last seal, mark, settle or sift did; Unchanged before any.
    #[must_use]
    pub fn last(&self) -> Step {
        Step::by_number(self.given.last.into())
    }

    /// The nodes of the job by their numbers; none before a header.
    #[must_use]
    pub fn nodes(&self) -> impl ExactSizeIterator<Item = Value> + '_ {
        (0..self.given.nodes).map(|node| self.value(node))
    }

    /// None if the job has no such node.
    #[must_use]
    pub fn node(&self, node: usize) -> Option<Value> {
        (node < self.given.nodes).then(|| self.value(node))
    }

    fn value(&self, node: usize) -> Value {
        let bit = |mask: &[u64]| mask[node / 64] >> (node % 64) & 1 == 1;
        if bit(&self.work.sure) {
            Value::Sure
        } else if bit(&self.work.never) {
            Value::Never
        } else {
            Value::Undecided
        }
    }

    /// The rows by their numbers; none before the seal.
    #[must_use]
    pub fn rows(&self) -> impl ExactSizeIterator<Item = Row> + '_ {
        let rows = self.work.figures.iter().zip(self.work.cursors.iter());
        rows.take(self.given.rows).map(|(&[known, possible, lower, upper], cursors)| Row {
            known,
            possible,
            lower,
            upper: (cursors[4] == 1).then_some(upper),
        })
    }

    /// The row of a threshold's node, none for another node or before the seal.
    #[must_use]
    pub fn row_of(&self, node: usize) -> Option<usize> {
        let [threshold, row, _] = self.work.nodes[..self.given.nodes].get(node)?;
        (*threshold > 0).then_some(usize::from(*row))
    }

    /// The answers of settles and sifts, in their order.
    #[must_use]
    pub fn answers(&self) -> impl ExactSizeIterator<Item = Answer> + '_ {
        self.work.answers.iter().take(self.given.answered).map(|&[number, visits]| {
            let step = Step::by_number(number % 4);
            if number < 4 {
                Answer::Settle(step)
            } else {
                Answer::Sift { step, visits }
            }
        })
    }
}

impl Step {
    fn by_number(number: u16) -> Self {
        match number {
            0 => Self::Unchanged,
            1 => Self::Changed,
            _ => Self::Contradiction,
        }
    }
}

impl Reason {
    /// Its number.
    #[must_use]
    pub fn number(self) -> u8 {
        self as u8
    }

    fn by_number(number: u8) -> Option<Self> {
        Some(match number {
            0 => return None,
            1 => Self::CutOff,
            2 => Self::UnknownKind,
            3 => Self::OutOfTurn,
            4 => Self::TooMany,
            5 => Self::NoSuchNode,
            6 => Self::NotRising,
            7 => Self::BoundOutside,
            8 => Self::NoValue,
            9 => Self::Contradicted,
            _ => Self::TooLong,
        })
    }
}

impl fmt::Display for Reason {
    fn fmt(&self, out: &mut fmt::Formatter<'_>) -> fmt::Result {
        out.write_str(match self {
            Self::CutOff => "the input ends inside the record",
            Self::UnknownKind => "there is no such kind of record",
            Self::OutOfTurn => "the record is not in its turn",
            Self::TooMany => "the record is beyond a limit",
            Self::NoSuchNode => "the job has no such node",
            Self::NotRising => "the threshold's node is not above the one before",
            Self::BoundOutside => "the bound is outside -2^52 to 2^52",
            Self::NoValue => "the mark's value is neither 0 nor 1",
            Self::Contradicted => "an earlier record found a contradiction",
            Self::TooLong => "the input has more than 65,536 bytes",
        })
    }
}

impl fmt::Display for Refusal {
    fn fmt(&self, out: &mut fmt::Formatter<'_>) -> fmt::Result {
        write!(out, "refused at byte {}: {}", self.offset, self.reason)
    }
}

impl std::error::Error for Refusal {}

impl fmt::Display for Failure {
    fn fmt(&self, out: &mut fmt::Formatter<'_>) -> fmt::Result {
        match self {
            Self::Contradicted => out.write_str("no layout is left"),
            Self::Refused(refusal) => refusal.fmt(out),
            Self::Unsettled(marks) => write!(out, "marks after the last settle or sift: {marks}"),
        }
    }
}

impl std::error::Error for Failure {}
