//! Document 01's draining, settling and sifting around the original functions.
//! Where `NOTED`, each step is noted as an event, for traces and for the coverage
//! report; else nothing is done but the work itself, for measurements.

use super::inert::Free;
use super::thresholds::{State, Thresholds};
use super::{
    AnswerSetsSought, Closure, CommonScratch, Counters, KnownMut, Meter, Narrower, Step, bit,
    extrema, support,
};
use crate::region::mask_words;
use crate::words::Words;
use crate::{Failure, RawThreshold, Theory};

/// `Step`, for readers outside; strongest last.
#[derive(Clone, Copy, Debug, Default, PartialEq, Eq, PartialOrd, Ord)]
pub enum Answer {
    #[default]
    Unchanged,
    Changed,
    Contradiction,
}

impl From<Step> for Answer {
    fn from(step: Step) -> Self {
        match step {
            Step::Unchanged => Self::Unchanged,
            Step::Changed => Self::Changed,
            Step::Contradiction => Self::Contradiction,
        }
    }
}

/// A bound that `threshold_prefixes` moved.
#[derive(Clone, Copy, Debug)]
pub struct Moved {
    pub target: usize,
    pub lower: bool,
    pub upper: bool,
    /// Source and target have equal terms.
    pub equal: bool,
}

#[derive(Clone, Debug)]
pub enum Event {
    /// A node was taken; `condition` is none where the guard contradicted.
    Node {
        node: usize,
        sure: bool,
        guard: Option<Answer>,
        condition: Option<Answer>,
        /// Rows with this condition, and those of them whose sums were updated.
        rows: usize,
        reached: usize,
    },
    Prefixes {
        row: usize,
        answer: Answer,
        moved: Vec<Moved>,
    },
    Residual {
        row: usize,
        answer: Answer,
        /// Whether the suffix gcds were built: then the whole row did not contradict.
        branches: bool,
        sure: usize,
        never: usize,
    },
    Search {
        row: usize,
        answer: Answer,
        /// Words of the plan, 0 if there was none.
        words: usize,
        visits: u64,
        cut_short: bool,
        interval: bool,
        /// Whether the row has decided terms, and terms above the window.
        decided: bool,
        heavy: bool,
    },
}

/// What the original keeps beside the rows; nothing of it is used here.
#[derive(Default)]
struct Idle {
    neutral: Counters<u8>,
    unknown: Counters<u8>,
    seeded: bool,
    founded: bool,
    progress: support::Progress,
}

pub struct Planner<const NOTED: bool = true> {
    theory: Theory,
    index: Narrower,
    sure: Vec<u64>,
    never: Vec<u64>,
    states: Box<[State]>,
    lists: CommonScratch,
    /// How many entries in front of the node, row and residual queue are taken.
    heads: [usize; 3],
    idle: Idle,
    /// Entries taken so far from the node, row and residual queues, oldest first.
    pub taken: [Vec<usize>; 3],
    /// Suffix gcds, each list over those before it.
    pub gcds: Vec<u64>,
    /// Most entries that waited at once in each queue.
    pub most: [usize; 3],
    pub events: Vec<Event>,
}

/// One row with its state, copied for a reader.
pub struct RowView {
    pub terms: Vec<(usize, i128)>,
    pub guards: Vec<(usize, i128)>,
    pub total: i128,
    pub links: Vec<usize>,
    pub figures: (i128, i128, i128, Option<i128>),
    pub cursors: [usize; 4],
}

type Outcome = Result<Step, Failure<std::convert::Infallible>>;

impl<const NOTED: bool> Planner<NOTED> {
    /// Build the rows by the original's `prepare`, with no chains.
    pub fn new(nodes: usize, raw: Vec<RawThreshold>) -> Self {
        let theory = Theory::of_job(nodes, raw);
        let chain_of = vec![None; nodes];
        let thresholds = Thresholds::prepare(&theory, &[], &chain_of, &extrema::Extrema, false)
            .expect("the limits leave no overflow");
        let states = thresholds.knowledge();
        let mut lists = CommonScratch::default();
        lists.prepare_thresholds(states.len()).expect("memory");
        lists.prepare_residuals(states.len()).expect("memory");
        Self {
            theory,
            index: Narrower { thresholds },
            sure: vec![0; mask_words(nodes)],
            never: vec![0; mask_words(nodes)],
            states,
            lists,
            heads: [0; 3],
            idle: Idle::default(),
            taken: std::array::from_fn(|_| Vec::new()),
            gcds: Vec::new(),
            most: [0; 3],
            events: Vec::new(),
        }
    }

    /// Call the original over the planner's memory.
    fn call(
        &mut self,
        meter: &mut Meter<'_, Free>,
        run: impl FnOnce(
            &mut Closure<'_, u8, AnswerSetsSought>,
            &Narrower,
            &Theory,
            &mut Meter<'_, Free>,
        ) -> Outcome,
    ) -> Step {
        let mut closure = Closure {
            known: KnownMut {
                sure: Words::new(&mut self.sure),
                never: Words::new(&mut self.never),
                atom_sure: Words::new(&mut []),
                atom_never: Words::new(&mut []),
                seen: Words::new(&mut []),
                witnessed: Words::new(&mut []),
                neutral_operands: &mut self.idle.neutral,
                unknown: &mut self.idle.unknown,
                thresholds: &mut self.states,
                seeded: &mut self.idle.seeded,
                founded_closed: &mut self.idle.founded,
                support_progress: &mut self.idle.progress,
            },
            lists: &mut self.lists,
            learning: (),
        };
        let step = run(&mut closure, &self.index, &self.theory, meter)
            .expect("the meter never stops and the limits leave no overflow");
        if NOTED {
            let [rows, residuals] = self.waiting_rows().map(<[usize]>::len);
            let waiting = [self.waiting_nodes().len(), rows, residuals];
            for (most, now) in self.most.iter_mut().zip(waiting) {
                *most = now.max(*most);
            }
        }
        step
    }

    /// Enter a step into the events.
    fn note(&mut self, event: impl FnOnce() -> Event) {
        if NOTED {
            self.events.push(event());
        }
    }

    /// Enter what was taken from a queue.
    fn took(&mut self, queue: usize, entry: usize) {
        if NOTED {
            self.taken[queue].push(entry);
        }
    }

    fn step(
        &mut self,
        run: impl FnOnce(
            &mut Closure<'_, u8, AnswerSetsSought>,
            &Narrower,
            &Theory,
            &mut Meter<'_, Free>,
        ) -> Outcome,
    ) -> Step {
        self.call(&mut Meter::new(), run)
    }

    /// Run each row once, in order.
    pub fn seal(&mut self) -> Answer {
        self.step(|closure, index, _, work| closure.seed_thresholds(index, None, work)).into()
    }

    /// Decide and queue one node.
    pub fn mark(&mut self, node: usize, sure: bool) -> Answer {
        self.step(|closure, _, _, _| {
            Ok(if sure { closure.sure(node) } else { closure.never(node) })
        })
        .into()
    }

    pub fn settle(&mut self) -> Answer {
        self.drain().into()
    }

    /// Answer, and the visits of the last search.
    pub fn sift(&mut self) -> (Answer, u64) {
        let mut visits = 0;
        let mut step = self.drain();
        while step != Step::Contradiction {
            let Some(row) = self.next_residual() else { break };
            let mut one = self.residual(row);
            if one == Step::Unchanged {
                one = self.search(row, &mut visits);
            }
            step = step.join(one);
            if step != Step::Contradiction {
                step = step.join(self.drain());
            }
        }
        (step.into(), visits)
    }

    /// Nodes first, oldest first; with none waiting the oldest queued row.
    fn drain(&mut self) -> Step {
        let mut step = Step::Unchanged;
        loop {
            let one = if let Some((node, value)) = self.next_node() {
                self.node(node, value)
            } else if let Some(row) = self.next_row() {
                self.prefixes(row)
            } else {
                return step;
            };
            step = step.join(one);
            if step == Step::Contradiction {
                return step;
            }
        }
    }

    fn next_node(&mut self) -> Option<(usize, bool)> {
        let entry = take_oldest(&mut self.lists.nodes, &mut self.heads[0])?;
        self.took(0, entry.0);
        Some(entry)
    }

    fn next_row(&mut self) -> Option<usize> {
        let row = take_oldest(&mut self.lists.threshold_rows, &mut self.heads[1])?;
        self.lists.pending_thresholds.remove(row);
        self.took(1, row);
        Some(row)
    }

    fn next_residual(&mut self) -> Option<usize> {
        let row = take_oldest(&mut self.lists.residual_rows, &mut self.heads[2])?;
        self.lists.pending_residuals.remove(row);
        self.took(2, row);
        Some(row)
    }

    /// The guard if the node is a threshold, then its part as a condition.
    fn node(&mut self, node: usize, value: bool) -> Step {
        let mut step = Step::Unchanged;
        let mut guard = None;
        let touched = if NOTED { self.incidences_of(node) } else { Vec::new() };
        if let Some(bound) = self.theory.bound(node) {
            step = self.step(|closure, index, theory, work| {
                closure.threshold_guard(index, theory, node, bound, None, work)
            });
            guard = Some(step.into());
        }
        let mut condition = None;
        let mut reached = 0;
        if step != Step::Contradiction {
            let before = self.sums(&touched);
            let one = self.step(|closure, index, _, work| {
                closure.threshold_condition(index, node, value, None, work)
            });
            let after = self.sums(&touched);
            reached = before.iter().zip(&after).filter(|(old, new)| old != new).count();
            condition = Some(one.into());
            step = step.join(one);
        }
        let rows = touched.len();
        self.note(|| Event::Node { node, sure: value, guard, condition, rows, reached });
        step
    }

    /// Known and possible of the rows listed.
    fn sums(&self, rows: &[(usize, i128)]) -> Vec<(i128, i128)> {
        rows.iter()
            .map(|&(row, _)| {
                let (known, possible, ..) = self.states[row].figures();
                (known, possible)
            })
            .collect()
    }

    fn prefixes(&mut self, row: usize) -> Step {
        let targets = if NOTED { self.index.thresholds.links(row).to_vec() } else { Vec::new() };
        let before: Vec<State> = targets.iter().map(|&target| self.states[target]).collect();
        let step =
            self.step(|closure, index, _, work| closure.threshold_prefixes(index, row, work));
        let mut moved = Vec::new();
        for (&target, old) in targets.iter().zip(before) {
            let (_, _, lower, upper) = self.states[target].figures();
            let (_, _, old_lower, old_upper) = old.figures();
            let rows = &self.index.thresholds.rows;
            let equal = rows[row].terms.len() == rows[target].terms.len();
            let (lower, upper) = (lower != old_lower, upper != old_upper);
            if lower || upper {
                moved.push(Moved { target, lower, upper, equal });
            }
        }
        self.note(|| Event::Prefixes { row, answer: step.into(), moved });
        step
    }

    fn residual(&mut self, row: usize) -> Step {
        let run = |planner: &mut Self| {
            planner.step(|closure, index, _, work| closure.threshold_residual(index, row, work))
        };
        if !NOTED {
            return run(self);
        }
        let before = self.counts();
        // Taken away for the moment, to see whether the call builds it anew.
        let suffix = std::mem::take(&mut self.lists.residual_suffix);
        let step = run(self);
        let branches = !self.lists.residual_suffix.is_empty();
        if branches {
            let made: Vec<u64> = self.suffix().iter().map(|&gcd| gcd as u64).collect();
            self.gcds.resize(self.gcds.len().max(made.len()), 0);
            self.gcds[..made.len()].copy_from_slice(&made);
        } else {
            self.lists.residual_suffix = suffix;
        }
        let after = self.counts();
        self.note(|| Event::Residual {
            row,
            answer: step.into(),
            branches,
            sure: after.0 - before.0,
            never: after.1 - before.1,
        });
        step
    }

    /// Each search starts with fresh words. It began exactly if it took a visit.
    fn search(&mut self, row: usize, last: &mut u64) -> Step {
        self.lists.possible_sums = Words::default();
        let mut meter = Meter::new();
        let step = self.call(&mut meter, |closure, index, _, work| {
            closure.threshold_possible_sums(index, row, work)
        });
        if meter.visits > 0 {
            *last = meter.visits;
        }
        if NOTED {
            self.searched(row, step.into(), &meter);
        }
        step
    }

    /// Enter a search, which decides nothing: rows and masks are as it met them.
    fn searched(&mut self, row: usize, answer: Answer, meter: &Meter<'_, Free>) {
        let (known, possible, lower, upper) = self.states[row].figures();
        let interval = lower > known && upper.is_some_and(|upper| upper <= possible);
        let terms = self.index.thresholds.rows[row].terms.iter();
        let decided = terms.clone().any(|term| self.decided(term.0).is_some());
        let heavy = upper.is_some_and(|top| terms.clone().any(|term| term.1 >= top - known));
        let words = self.lists.possible_sums.capacity();
        let (visits, cut_short) = (meter.visits, meter.cut_short);
        if visits > 0 {
            // An allocator that hands out more than asked would be noticed here.
            let wanted = upper.map(|upper| (upper - known - 1) / 64 + 1);
            assert_eq!(wanted, Some(words as i128), "words of the plan");
        }
        self.note(|| Event::Search {
            row,
            answer,
            words,
            visits,
            cut_short,
            interval,
            decided,
            heavy,
        });
    }

    /// The numbers of sure and of never nodes.
    pub fn counts(&self) -> (usize, usize) {
        let ones = |mask: &[u64]| mask.iter().map(|word| word.count_ones() as usize).sum();
        (ones(&self.sure), ones(&self.never))
    }

    pub fn nodes(&self) -> usize {
        self.theory.nodes().len()
    }

    pub fn decided(&self, node: usize) -> Option<bool> {
        if bit(&self.sure, node) {
            Some(true)
        } else if bit(&self.never, node) {
            Some(false)
        } else {
            None
        }
    }

    /// The two masks, sure and never.
    pub fn masks(&self) -> [&[u64]; 2] {
        [&self.sure, &self.never]
    }

    pub fn row_count(&self) -> usize {
        self.states.len()
    }

    pub fn row(&self, row: usize) -> RowView {
        let data = &self.index.thresholds.rows[row];
        RowView {
            terms: data.terms.clone(),
            guards: data.guards.clone(),
            total: data.total(),
            links: self.index.thresholds.links(row).to_vec(),
            figures: self.states[row].figures(),
            cursors: self.states[row].cursors(),
        }
    }

    /// The row of a threshold, none for another node.
    pub fn row_of(&self, node: usize) -> Option<usize> {
        self.theory.bound(node)?;
        Some(self.index.thresholds.row_of(&self.theory, node))
    }

    pub fn incidences_of(&self, node: usize) -> Vec<(usize, i128)> {
        self.index.thresholds.incidences_of(node)
    }

    /// Waiting nodes, rows and residual rows, oldest first.
    pub fn waiting_nodes(&self) -> &[(usize, bool)] {
        &self.lists.nodes[self.heads[0]..]
    }

    pub fn waiting_rows(&self) -> [&[usize]; 2] {
        [&self.lists.threshold_rows[self.heads[1]..], &self.lists.residual_rows[self.heads[2]..]]
    }

    /// The suffix gcds of the last residual that built them.
    pub fn suffix(&self) -> &[i128] {
        &self.lists.residual_suffix
    }
}

/// The original's queues are plain lists; what is taken leaves them at the latest when half of a list is.
fn take_oldest<T: Copy>(queue: &mut Vec<T>, head: &mut usize) -> Option<T> {
    let entry = *queue.get(*head)?;
    *head += 1;
    if *head * 2 >= queue.len() {
        queue.drain(..*head);
        *head = 0;
    }
    Some(entry)
}
