//! Reads a job file record by record, makes document 01's checks in its order
//! and hands accepted records to the planner, areas joined (document 02, section 1).

use crate::RawThreshold;
use crate::regions::{Answer, Event, Planner};

pub const INPUT: usize = 65_536;
pub const NODES: usize = 4_096;
pub const THRESHOLDS: usize = 1_024;
pub const TERMS_OF_ONE: usize = 1_024;
pub const TERMS: usize = 4_096;
pub const ANSWERS: usize = 64;
pub const BOUND: i64 = 1 << 52;

/// One record with its fields, read but not yet checked.
#[derive(Clone, Copy, Debug, PartialEq, Eq)]
pub enum Record {
    Header { nodes: usize },
    Threshold { node: usize, bound: i64 },
    Term { condition: usize, weight: u32 },
    Seal,
    Mark { node: usize, value: u8 },
    Settle,
    Sift,
    Area { condition: usize, area: u32 },
}

/// The weight of areas that add up to this sum, a half going up.
pub fn area_weight(sum: u64) -> u64 {
    (sum + 50) / 100
}

/// A term as its record has it: the number is a weight, or an area.
#[derive(Clone, Copy, Debug, PartialEq, Eq)]
pub struct Term {
    pub condition: usize,
    pub number: u32,
    pub area: bool,
}

/// A threshold as its record has it, and how many of the file's terms stand before its own.
#[derive(Clone, Copy, Debug)]
pub struct Opened {
    pub node: usize,
    pub bound: i64,
    pub before: usize,
}

/// Bytes behind the kind byte, none for an unknown kind.
pub fn body_length(kind: u8) -> Option<usize> {
    match kind {
        1 => Some(2),
        2 => Some(10),
        3 | 8 => Some(6),
        4 | 6 | 7 => Some(0),
        5 => Some(3),
        _ => None,
    }
}

fn read_record(kind: u8, body: &[u8]) -> Option<Record> {
    let body = body.get(..body_length(kind)?)?;
    let half = |at: usize| usize::from(u16::from_le_bytes([body[at], body[at + 1]]));
    let word = |at: usize| u32::from_le_bytes(body[at..at + 4].try_into().expect("four bytes"));
    Some(match kind {
        1 => Record::Header { nodes: half(0) },
        2 => Record::Threshold {
            node: half(0),
            bound: i64::from_le_bytes(body[2..10].try_into().expect("eight bytes")),
        },
        3 => Record::Term { condition: half(0), weight: word(2) },
        4 => Record::Seal,
        5 => Record::Mark { node: half(0), value: body[2] },
        6 => Record::Settle,
        7 => Record::Sift,
        _ => Record::Area { condition: half(0), area: word(2) },
    })
}

/// What happened at one record, for traces and for the coverage report.
pub struct Note {
    pub offset: usize,
    pub kind: u8,
    pub record: Option<Record>,
    /// Every refusal that applies, in the table's order; the first is given.
    pub found: Vec<u8>,
    pub answer: Option<Answer>,
    pub visits: Option<u64>,
    /// Sure and never nodes before and after.
    pub decided: [(usize, usize); 2],
    /// Entries taken from each queue by this record.
    pub taken: [usize; 3],
    pub events: Vec<Event>,
}

/// A whole file, run to its end or its refusal; where `NOTED`, with a note of each record.
#[derive(Default)]
pub struct Run<const NOTED: bool = true> {
    pub length: usize,
    pub header: Option<usize>,
    pub thresholds: Vec<Opened>,
    /// The terms of all thresholds, record by record.
    pub terms: Vec<Term>,
    pub planner: Option<Planner<NOTED>>,
    /// Settles and sifts; a sift has visits.
    pub answers: Vec<(Answer, Option<u64>)>,
    /// What the last seal, mark, settle or sift answered, Unchanged before any.
    pub last: Answer,
    pub contradicted: bool,
    pub refusal: Option<(u8, usize)>,
    pub notes: Vec<Note>,
}

pub fn run(input: &[u8]) -> Run {
    run_file(input)
}

/// The same work with nothing noted, as a program that only plans would do it, for measurements.
pub fn plan(input: &[u8]) -> Run<false> {
    run_file(input)
}

fn run_file<const NOTED: bool>(input: &[u8]) -> Run<NOTED> {
    let mut run = Run { length: input.len(), ..Run::default() };
    if input.len() > INPUT {
        run.refusal = Some((10, 0));
        return run;
    }
    let mut at = 0;
    while at < input.len() {
        let record = read_record(input[at], &input[at + 1..]);
        let checks = run.checks(input[at], record.as_ref());
        let first = checks.iter().find(|(_, applies)| *applies);
        if NOTED {
            let found = checks.iter().filter(|(_, applies)| *applies);
            run.note(at, input[at], record, found.map(|&(number, _)| number).collect());
        }
        if let Some(&(number, _)) = first {
            run.refusal = Some((number, at));
            break;
        }
        run.accept(record.expect("a whole record"));
        at += 1 + body_length(input[at]).expect("a known kind");
    }
    run
}

impl<const NOTED: bool> Run<NOTED> {
    /// Every refusal and whether it applies to a record, in the order of the table. A
    /// check whose field is missing or has nothing to be held against does not.
    fn checks(&self, kind: u8, record: Option<&Record>) -> [(u8, bool); 9] {
        let known = body_length(kind).is_some();
        [
            (2, !known),
            (1, known && record.is_none()),
            (3, self.out_of_turn(kind)),
            (9, self.contradicted),
            (5, record.is_some_and(|record| self.node_too_high(record))),
            (6, record.is_some_and(|record| self.node_not_rising(record))),
            (7, record.is_some_and(bound_outside)),
            (8, matches!(record, Some(Record::Mark { value, .. }) if *value > 1)),
            (4, self.past_counts(kind, record)),
        ]
    }

    fn out_of_turn(&self, kind: u8) -> bool {
        let sealed = self.planner.is_some();
        match kind {
            1 => self.header.is_some(),
            _ if self.header.is_none() => true,
            2 | 4 => sealed,
            3 | 8 => sealed || self.thresholds.is_empty(),
            5..=7 => !sealed,
            _ => false,
        }
    }

    fn node_too_high(&self, record: &Record) -> bool {
        let Some(nodes) = self.header else { return false };
        match *record {
            Record::Threshold { node, .. } | Record::Mark { node, .. } => node >= nodes,
            Record::Term { condition, .. } | Record::Area { condition, .. } => condition >= nodes,
            _ => false,
        }
    }

    fn node_not_rising(&self, record: &Record) -> bool {
        match (record, self.thresholds.last()) {
            (Record::Threshold { node, .. }, Some(last)) => *node <= last.node,
            _ => false,
        }
    }

    fn past_counts(&self, kind: u8, record: Option<&Record>) -> bool {
        match kind {
            1 => matches!(record, Some(Record::Header { nodes }) if *nodes > NODES),
            2 => self.thresholds.len() >= THRESHOLDS,
            3 | 8 => {
                let open = self.thresholds.last().map_or(0, |last| self.terms.len() - last.before);
                open >= TERMS_OF_ONE || self.terms.len() >= TERMS
            }
            6 | 7 => self.answers.len() >= ANSWERS,
            _ => false,
        }
    }

    fn note(&mut self, offset: usize, kind: u8, record: Option<Record>, found: Vec<u8>) {
        let now = self.planner.as_ref().map_or((0, 0), Planner::counts);
        self.notes.push(Note {
            offset,
            kind,
            record,
            found,
            answer: None,
            visits: None,
            decided: [now, now],
            taken: [0; 3],
            events: Vec::new(),
        });
    }

    fn accept(&mut self, record: Record) {
        match record {
            Record::Header { nodes } => self.header = Some(nodes),
            Record::Threshold { node, bound } => {
                self.thresholds.push(Opened { node, bound, before: self.terms.len() });
            }
            Record::Term { condition, weight } => {
                self.terms.push(Term { condition, number: weight, area: false });
            }
            Record::Area { condition, area } => {
                self.terms.push(Term { condition, number: area, area: true });
            }
            Record::Seal => {
                let nodes = self.header.expect("the turn was checked");
                self.planner = Some(Planner::new(nodes, self.raw()));
                self.work(|planner| (planner.seal(), None));
            }
            Record::Mark { node, value } => {
                self.work(|planner| (planner.mark(node, value == 1), None));
            }
            Record::Settle => {
                let answer = self.work(|planner| (planner.settle(), None));
                self.answers.push(answer);
            }
            Record::Sift => {
                let answer = self.work(|planner| {
                    let (answer, visits) = planner.sift();
                    (answer, Some(visits))
                });
                self.answers.push(answer);
            }
        }
    }

    /// The terms of a threshold, record by record.
    pub fn terms_of(&self, place: usize) -> &[Term] {
        let end = self.thresholds.get(place + 1).map_or(self.terms.len(), |next| next.before);
        &self.terms[self.thresholds[place].before..end]
    }

    /// The job's thresholds so far, as the original is handed them: their areas joined.
    pub fn raw(&self) -> Vec<RawThreshold> {
        let mut sums = vec![None; self.header.unwrap_or(0)];
        let threshold = |(place, one): (usize, &Opened)| {
            let (conditions, weights) = joined(self.terms_of(place), &mut sums);
            RawThreshold { node: one.node, bound: i128::from(one.bound), conditions, weights }
        };
        self.thresholds.iter().enumerate().map(threshold).collect()
    }

    /// Let the planner work and enter what it did into the record's note.
    fn work(
        &mut self,
        act: impl FnOnce(&mut Planner<NOTED>) -> (Answer, Option<u64>),
    ) -> (Answer, Option<u64>) {
        let planner = self.planner.as_mut().expect("the turn was checked");
        let before: [usize; 3] = std::array::from_fn(|queue| planner.taken[queue].len());
        let (answer, visits) = act(planner);
        if NOTED {
            let note = self.notes.last_mut().expect("noted before it is accepted");
            note.answer = Some(answer);
            note.visits = visits;
            note.decided[1] = planner.counts();
            note.taken = std::array::from_fn(|queue| planner.taken[queue].len() - before[queue]);
            note.events = std::mem::take(&mut planner.events);
        }
        self.last = answer;
        self.contradicted |= answer == Answer::Contradiction;
        (answer, visits)
    }
}

fn bound_outside(record: &Record) -> bool {
    matches!(record, Record::Threshold { bound, .. } if !(-BOUND..=BOUND).contains(bound))
}

/// The raw list of a threshold's terms. Areas of one condition are added in hundredths, the sum is rounded once, and the
/// weight stands where the first of them stood. `sums` has a place for each node, empty before and afterwards.
fn joined(terms: &[Term], sums: &mut [Option<u64>]) -> (Vec<usize>, Vec<u64>) {
    for area in terms.iter().filter(|term| term.area) {
        *sums[area.condition].get_or_insert(0) += u64::from(area.number);
    }
    let mut conditions = Vec::with_capacity(terms.len());
    let mut weights = Vec::with_capacity(terms.len());
    for term in terms {
        // The first area of its condition takes the sum, and nothing is left for the others.
        let weight = if term.area {
            sums[term.condition].take().map(area_weight)
        } else {
            Some(u64::from(term.number))
        };
        if let Some(weight) = weight {
            conditions.push(term.condition);
            weights.push(weight);
        }
    }
    (conditions, weights)
}
