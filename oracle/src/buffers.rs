//! What the call gives back and leaves in its lent buffers (docs/BUFFERS.md), made of what the original did: a line
//! `call` with refusal, offset, sealed, nodes, rows, answers and last step, then one line for each buffer, its
//! elements up to the last that is not zero, an array's numbers joined by commas.

use std::fmt::Write;

use crate::job::Run;
use crate::regions::{Answer, Planner};

const NODES: usize = 4_096;
const ROWS: usize = 1_024;

type Element = Vec<i128>;

pub fn words(run: &Run) -> String {
    let mut out = String::new();
    line(&mut out, "call", vec![call(run)]);
    raw(&mut out, run);
    match &run.planner {
        Some(planner) => {
            built(&mut out, run, planner);
            kept(&mut out, planner);
        }
        None => nothing_built(&mut out),
    }
    let answers = run.answers.iter().map(|&(answer, visits)| answered(answer, visits));
    line(&mut out, "answers", answers.collect());
    out
}

fn call(run: &Run) -> Element {
    let (refused, at) =
        run.refusal.map_or((0, run.length), |(number, at)| (usize::from(number), at));
    let sealed = usize::from(run.planner.is_some());
    let rows = run.planner.as_ref().map_or(0, Planner::row_count);
    let last = run.last as usize;
    numbers([refused, at, sealed, run.header.unwrap_or(0), rows, run.answers.len(), last])
}

/// The answer's number, a sift's 4 more, and its visits.
fn answered(answer: Answer, visits: Option<u64>) -> Element {
    let number = answer as i128;
    visits.map_or(vec![number, 0], |visits| vec![number + 4, i128::from(visits)])
}

fn raw(out: &mut String, run: &Run) {
    let raw = run.raw();
    let lists = || raw.iter();
    line(out, "raw_conditions", singles(lists().flat_map(|one| one.conditions.clone())));
    line(out, "raw_weights", singles(lists().flat_map(|one| one.weights.clone())));
    let ends = ends(lists().map(|one| one.conditions.len()));
    let nodes = lists().map(|one| one.node);
    line(out, "thresholds", nodes.zip(ends).map(|(node, end)| numbers([node, end])).collect());
    line(out, "bounds", lists().map(|one| vec![one.bound]).collect());
}

fn built(out: &mut String, run: &Run, planner: &Planner) {
    let rows: Vec<_> = (0..planner.row_count()).map(|row| planner.row(row)).collect();
    let terms = || rows.iter().flat_map(|row| row.terms.clone());
    let guards = || rows.iter().flat_map(|row| row.guards.clone());
    line(out, "row_conditions", singles(terms().map(|term| term.0)));
    line(out, "row_weights", terms().map(|term| vec![term.1]).collect());
    let columns = [
        ends(rows.iter().map(|row| row.terms.len())),
        ends(rows.iter().map(|row| row.guards.len())),
        ends(rows.iter().map(|row| row.links.len())),
    ];
    let places = (0..rows.len()).map(|row| numbers(columns.iter().map(|column| column[row])));
    line(out, "rows", places.collect());
    line(out, "guard_bounds", guards().map(|guard| vec![guard.1]).collect());
    line(out, "guard_nodes", singles(guards().map(|guard| guard.0)));
    let edges = ends((0..planner.nodes()).map(|node| planner.incidences_of(node).len()));
    let number = |node| run.thresholds.iter().position(|one| one.node == node);
    let entry = |node: usize| {
        let threshold = number(node).map_or(0, |threshold| threshold + 1);
        numbers([threshold, planner.row_of(node).unwrap_or(0), edges[node]])
    };
    line(out, "nodes", (0..planner.nodes()).map(entry).collect());
    let incidences = (0..planner.nodes()).flat_map(|node| planner.incidences_of(node));
    line(out, "edges", incidences.map(|(row, weight)| vec![row as i128, weight]).collect());
    line(out, "links", singles(rows.iter().flat_map(|row| row.links.clone())));
}

fn kept(out: &mut String, planner: &Planner) {
    let rows: Vec<_> = (0..planner.row_count()).map(|row| planner.row(row)).collect();
    let figures = rows.iter().map(|row| row.figures);
    let figures = figures
        .map(|(known, possible, lower, upper)| vec![known, possible, lower, upper.unwrap_or(0)]);
    line(out, "figures", figures.collect());
    let cursors = rows.iter().map(|row| {
        let mut cursors = numbers(row.cursors);
        cursors.push(i128::from(row.figures.3.is_some()));
        cursors
    });
    line(out, "cursors", cursors.collect());
    for (name, mask) in ["sure", "never"].into_iter().zip(planner.masks()) {
        line(out, name, mask.iter().map(|&word| vec![i128::from(word)]).collect());
    }
    line(out, "search", Vec::new());
    line(out, "gcds", planner.gcds.iter().map(|&gcd| vec![i128::from(gcd)]).collect());
    let nodes: Vec<usize> = planner.waiting_nodes().iter().map(|entry| entry.0).collect();
    let nodes = ring(&planner.taken[0], &nodes, NODES);
    line(out, "node_queue", singles(nodes));
    let [bounds, residuals] = planner.waiting_rows();
    let columns = [
        ring(&planner.taken[1], bounds, ROWS),
        flags(bounds),
        ring(&planner.taken[2], residuals, ROWS),
        flags(residuals),
    ];
    let places = (0..ROWS).map(|place| numbers(columns.iter().map(|column| column[place])));
    line(out, "row_queues", places.collect());
}

fn nothing_built(out: &mut String) {
    for name in [
        "row_conditions",
        "row_weights",
        "rows",
        "guard_bounds",
        "guard_nodes",
        "nodes",
        "edges",
        "links",
        "figures",
        "cursors",
        "sure",
        "never",
        "search",
        "gcds",
        "node_queue",
        "row_queues",
    ] {
        line(out, name, Vec::new());
    }
}

/// All entries that ever waited, each at the place at which it was put; taken ones stay.
fn ring(taken: &[usize], waiting: &[usize], places: usize) -> Vec<usize> {
    let mut ring = vec![0; places];
    for (at, &entry) in taken.iter().chain(waiting).enumerate() {
        ring[at % places] = entry;
    }
    ring
}

fn flags(waiting: &[usize]) -> Vec<usize> {
    (0..ROWS).map(|row| usize::from(waiting.contains(&row))).collect()
}

fn ends(lengths: impl Iterator<Item = usize>) -> Vec<usize> {
    lengths
        .scan(0, |end, length| {
            *end += length;
            Some(*end)
        })
        .collect()
}

fn numbers(list: impl IntoIterator<Item = usize>) -> Element {
    list.into_iter().map(|one| one as i128).collect()
}

fn singles<T: TryInto<i128>>(list: impl IntoIterator<Item = T>) -> Vec<Element> {
    let number = |one: T| one.try_into().unwrap_or_else(|_| unreachable!("it fits"));
    list.into_iter().map(|one| vec![number(one)]).collect()
}

fn line(out: &mut String, name: &str, mut elements: Vec<Element>) {
    while elements.last().is_some_and(|last| last.iter().all(|&number| number == 0)) {
        elements.pop();
    }
    let _ = write!(out, "{name}");
    for element in elements {
        let joined: Vec<String> = element.iter().map(i128::to_string).collect();
        let _ = write!(out, " {}", joined.join(","));
    }
    out.push('\n');
}
