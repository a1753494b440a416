//! Document 01's listing of a file, and the longer dumps for those who compare.

use std::fmt::Write;

use crate::job::{Note, Record, Run};
use crate::regions::{Answer, Event, Planner};

pub fn word(answer: Answer) -> &'static str {
    match answer {
        Answer::Unchanged => "unchanged",
        Answer::Changed => "changed",
        Answer::Contradiction => "contradiction",
    }
}

/// The listing of document 01, to the letter.
pub fn listing(run: &Run) -> String {
    let mut out = String::new();
    for (answer, visits) in &run.answers {
        match visits {
            None => line(&mut out, format_args!("settle {}", word(*answer))),
            Some(visits) => line(&mut out, format_args!("sift {} {visits}", word(*answer))),
        }
    }
    if let Some(planner) = &run.planner {
        nodes_and_rows(&mut out, planner);
    }
    let (sure, never) = run.planner.as_ref().map_or((0, 0), Planner::counts);
    match run.refusal {
        None => line(&mut out, format_args!("end {sure} {never}")),
        Some((number, offset)) => line(&mut out, format_args!("refused {number} at {offset}")),
    }
    out
}

fn nodes_and_rows(out: &mut String, planner: &Planner) {
    for node in 0..planner.nodes() {
        if let Some(sure) = planner.decided(node) {
            line(out, format_args!("node {node} {}", value(sure)));
        }
    }
    for row in 0..planner.row_count() {
        let (known, possible, lower, upper) = planner.row(row).figures;
        let upper = upper.map_or("-".to_string(), |upper| upper.to_string());
        line(out, format_args!("row {row} {known} {possible} {lower} {upper}"));
    }
}

/// Rows as built: terms, guards and links, and the rows of each condition.
pub fn rows(run: &Run) -> String {
    let mut out = String::new();
    let Some(planner) = &run.planner else { return out };
    for number in 0..planner.row_count() {
        let row = planner.row(number);
        line(&mut out, format_args!("row {number} total {}", row.total));
        line(&mut out, format_args!("  terms{}", pairs(&row.terms)));
        line(&mut out, format_args!("  guards{}", pairs(&row.guards)));
        line(&mut out, format_args!("  links{}", singles(&row.links)));
    }
    for node in 0..planner.nodes() {
        let rows = planner.incidences_of(node);
        if !rows.is_empty() {
            line(&mut out, format_args!("condition {node} in{}", pairs(&rows)));
        }
    }
    out
}

/// Every record with its answer and steps, then the memory at the end.
pub fn trace(run: &Run) -> String {
    let mut out = String::new();
    for note in &run.notes {
        record_line(&mut out, note);
        for event in &note.events {
            event_line(&mut out, event);
        }
    }
    out += &rows(run);
    if let Some(planner) = &run.planner {
        memory(&mut out, planner);
    }
    out
}

fn memory(out: &mut String, planner: &Planner) {
    for number in 0..planner.row_count() {
        line(out, format_args!("cursors {number}{}", singles(&planner.row(number).cursors)));
    }
    for (name, mask) in ["sure", "never"].iter().zip(planner.masks()) {
        let words = mask.iter().map(|word| format!(" {word:016x}"));
        line(out, format_args!("mask {name}{}", words.collect::<String>()));
    }
    let nodes = planner.waiting_nodes().iter();
    let nodes: String = nodes.map(|&(node, sure)| format!(" {node}:{}", value(sure))).collect();
    line(out, format_args!("nodes taken {} waiting{nodes}", planner.taken[0].len()));
    let [rows, residuals] = planner.waiting_rows();
    line(out, format_args!("rows taken {} waiting{}", planner.taken[1].len(), singles(rows)));
    line(
        out,
        format_args!("residuals taken {} waiting{}", planner.taken[2].len(), singles(residuals)),
    );
    line(out, format_args!("gcds{}", singles(planner.suffix())));
}

fn record_line(out: &mut String, note: &Note) {
    let _ = write!(out, "@{} {}", note.offset, record_text(note));
    if let Some(answer) = note.answer {
        let _ = write!(out, ": {}", word(answer));
    }
    if let Some(visits) = note.visits {
        let _ = write!(out, " {visits}");
    }
    if let Some(first) = note.found.first() {
        let _ = write!(out, ": refused {first}; apply{}", singles(&note.found));
    }
    out.push('\n');
}

fn record_text(note: &Note) -> String {
    match note.record {
        None => format!("kind {}", note.kind),
        Some(Record::Header { nodes }) => format!("header {nodes}"),
        Some(Record::Threshold { node, bound }) => format!("threshold {node} {bound}"),
        Some(Record::Term { condition, weight }) => format!("term {condition} {weight}"),
        Some(Record::Seal) => "seal".to_string(),
        Some(Record::Mark { node, value }) => format!("mark {node} {value}"),
        Some(Record::Settle) => "settle".to_string(),
        Some(Record::Sift) => "sift".to_string(),
        Some(Record::Area { condition, area }) => format!("area {condition} {area}"),
    }
}

fn event_line(out: &mut String, event: &Event) {
    let or_dash = |answer: &Option<Answer>| answer.map_or("-", word);
    match event {
        Event::Node { node, sure, guard, condition, rows, reached } => line(
            out,
            format_args!(
                "  node {node} {}: guard {}, condition {}, rows {reached} of {rows}",
                value(*sure),
                or_dash(guard),
                or_dash(condition)
            ),
        ),
        Event::Prefixes { row, answer, moved } => {
            let moved: String = moved
                .iter()
                .map(|one| {
                    let lower = if one.lower { " lower" } else { "" };
                    let upper = if one.upper { " upper" } else { "" };
                    format!(", row {}{lower}{upper}", one.target)
                })
                .collect();
            line(out, format_args!("  prefixes {row}: {}{moved}", word(*answer)));
        }
        Event::Residual { row, answer, branches, sure, never } => line(
            out,
            format_args!(
                "  residual {row}: {}, branches {}, sure {sure}, never {never}",
                word(*answer),
                if *branches { "tried" } else { "not tried" }
            ),
        ),
        Event::Search { row, answer, words: 0, .. } => {
            line(out, format_args!("  search {row}: {}, not planned", word(*answer)));
        }
        Event::Search { row, answer, words, visits, cut_short, .. } => line(
            out,
            format_args!(
                "  search {row}: {}, words {words}, visits {visits}{}",
                word(*answer),
                if *cut_short { ", cut short" } else { "" }
            ),
        ),
    }
}

fn value(sure: bool) -> &'static str {
    if sure { "sure" } else { "never" }
}

fn pairs(list: &[(usize, i128)]) -> String {
    list.iter().map(|(left, right)| format!(" ({left},{right})")).collect()
}

fn singles<T: std::fmt::Display>(list: &[T]) -> String {
    list.iter().map(|one| format!(" {one}")).collect()
}

fn line(out: &mut String, text: std::fmt::Arguments<'_>) {
    let _ = writeln!(out, "{text}");
}
