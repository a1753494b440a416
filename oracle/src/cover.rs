//! Counts what a set of files has reached. Everything is read off the runs from
//! outside; the original is not touched. `expected` names every counter there is,
//! with the reason where document 01 makes one impossible.

use std::collections::{BTreeMap, BTreeSet};

use crate::RawThreshold;
use crate::job::{self, BOUND, Note, Record, Run, Term};
use crate::listing::word;
use crate::regions::{Answer, Event, Planner, RowView};

#[derive(Default)]
pub struct Cover {
    counts: BTreeMap<String, u64>,
    pub files: u64,
}

type Expected = (String, Option<&'static str>);

const ANSWERS: [Answer; 3] = [Answer::Unchanged, Answer::Changed, Answer::Contradiction];
const KINDS: [&str; 9] =
    ["unknown", "header", "threshold", "term", "seal", "mark", "settle", "sift", "area"];

/// Pairs of refusals that can apply together, by kind: the first must be given.
const ORDERS: [(u8, &[(u8, u8)]); 9] = [
    (0, &[(2, 3), (2, 9)]),
    (1, &[(1, 3), (1, 9), (3, 9), (3, 4)]),
    (
        2,
        &[
            (1, 3),
            (1, 9),
            (1, 4),
            (3, 9),
            (3, 5),
            (3, 6),
            (3, 7),
            (3, 4),
            (5, 7),
            (5, 4),
            (6, 7),
            (6, 4),
            (7, 4),
        ],
    ),
    (3, &[(1, 3), (1, 9), (1, 4), (3, 9), (3, 5), (3, 4), (5, 4)]),
    (4, &[(3, 9)]),
    (5, &[(1, 3), (1, 9), (3, 5), (3, 8), (9, 5), (9, 8), (5, 8)]),
    (6, &[(9, 4)]),
    (7, &[(9, 4)]),
    (8, &[(1, 3), (1, 9), (1, 4), (3, 9), (3, 5), (3, 4), (5, 4)]),
];

const NEEDS_SEAL: &str = "9 needs a seal before it, and behind a seal this kind is in its turn";
const NO_ANSWERS: &str = "answers are counted behind the seal, where this kind is in its turn";

const IMPOSSIBLE: [(&str, &str); 13] = [
    ("answer seal contradiction", "at the seal every lower is 0 and there is no upper"),
    ("refusal 9 mark after seal", "a seal cannot contradict"),
    ("refusal 9 settle after seal", "a seal cannot contradict"),
    ("refusal 9 sift after seal", "a seal cannot contradict"),
    ("order 5 before 6 threshold", "a node past the count is above every earlier threshold"),
    ("order 3 before 9 mark", NEEDS_SEAL),
    ("order 3 before 9 settle", NEEDS_SEAL),
    ("order 3 before 9 sift", NEEDS_SEAL),
    ("order 3 before 4 settle", NO_ANSWERS),
    ("order 3 before 4 sift", NO_ANSWERS),
    ("step search changed", "a search decides nothing"),
    (
        "search cut short, one word",
        "n terms and one word take at most 3 + 2n visits, within 4n for n >= 2; n = 1 is not planned",
    ),
    (
        "limit search words 4,092 planned",
        "words + 5 <= 4 for each of at most 1,024 terms leaves 4,091",
    ),
];

/// Counters that need no table.
const PLAIN: [&str; 120] = [
    "refusal 10",
    "refusal 2 kind 0x00",
    "refusal 2 kind 0x09",
    "refusal 2 kind 0xff",
    "refusal 2 first record",
    "refusal 2 before the seal",
    "refusal 2 after the seal",
    "refusal 3 second header",
    "refusal 3 header after the seal",
    "refusal 3 threshold after the seal",
    "refusal 3 term after the seal",
    "refusal 3 area after the seal",
    "refusal 3 seal after the seal",
    "refusal 3 term with no open threshold",
    "refusal 3 area with no open threshold",
    "refusal 3 mark before the seal",
    "refusal 3 settle before the seal",
    "refusal 3 sift before the seal",
    "refusal 6 equal",
    "refusal 6 below",
    "refusal 7 2^52 + 1",
    "refusal 7 -2^52 - 1",
    "refusal 7 largest",
    "refusal 7 smallest",
    "refusal 8 value 2",
    "refusal 8 value 255",
    "order 10 before another",
    "refused before the seal",
    "refused behind an answer",
    "guard contradiction, condition not run",
    "condition contradiction, later rows not reached",
    "settle changed, nothing decided",
    "settle decides",
    "sift with no residual row",
    "sift with several residual rows",
    "sift contradiction, visits of an earlier search",
    "residual contradiction of the whole row",
    "residual contradiction of one term",
    "residual forces sure",
    "residual forces never",
    "residual forces several",
    "residual tries no branch",
    "search not planned, window too wide",
    "search not planned, no interval left",
    "search hit, one word",
    "search hit, many words",
    "search contradiction, one word",
    "search contradiction, many words",
    "search cut short, many words",
    "search with decided terms",
    "search with terms above the window",
    "prefix raises the longer's lower",
    "prefix lowers the shorter's upper",
    "equal rows: lower to the later",
    "equal rows: lower to the earlier",
    "equal rows: upper to the later",
    "equal rows: upper to the earlier",
    "row shared by raw list",
    "row shared by term and area",
    "row shared by joined areas",
    "rows equal but for their order, with joined areas",
    "areas joined",
    "areas joined around a term of their condition",
    "areas joined around a term of another condition",
    "areas joined around areas of another condition",
    "areas joined to 0",
    "areas joined to a half",
    "areas joined to more than one by one",
    "areas joined to less than one by one",
    "areas joined, sum above 32 bits",
    "areas joined, weight above 32 bits",
    "areas joined right before a refusal",
    "areas joined, file without seal",
    "areas of one condition in two thresholds",
    "area before a term of its condition",
    "area behind a term of its condition",
    "first area of a condition ends its threshold",
    "rows equal only after merging",
    "rows equal only without zeros",
    "row without terms",
    "row of zeros alone",
    "empty row linked to a longer",
    "row linked to several",
    "row with repeated conditions",
    "row with equal weights",
    "row with several guards",
    "guards with equal bounds",
    "bound negative",
    "bound 0",
    "bound above the total",
    "threshold lists itself",
    "threshold lists a later node",
    "threshold lists a later threshold",
    "row queue takes more than there are rows",
    "row total above 2^32",
    "empty input",
    "file without seal",
    "header 0",
    "limit nodes 4,096 met",
    "limit nodes 4,097 passed",
    "limit nodes 65,535 passed",
    "limit thresholds 1,024 met",
    "limit thresholds 1,025 passed",
    "limit terms of one 1,024 met",
    "limit terms of one 1,025 passed",
    "limit areas joined 1,024 met",
    "limit terms 4,096 met",
    "limit terms 4,097 passed",
    "limit answers 64 met",
    "limit bytes 65,536 met",
    "limit bytes 65,537 passed",
    "limit bound 2^52 met",
    "limit bound -2^52 met",
    "limit rows 1,024 met",
    "limit node queue 4,096 waiting",
    "limit row queue 1,024 waiting",
    "limit residual queue 1,024 waiting",
    "limit search words 4,091 planned",
    "limit gcds 1,025 built",
    "limit visits 4,096 taken",
];

/// Every counter, with the reason where it cannot be met.
pub fn expected() -> Vec<Expected> {
    let mut all: Vec<Expected> = PLAIN.iter().map(|name| (name.to_string(), None)).collect();
    let mut add = |name: String| all.push((name, None));
    for kind in [2, 3, 4, 5, 6, 7, 8] {
        add(format!("refusal 3 {} first record", KINDS[kind]));
    }
    for kind in [1, 2, 3, 5, 8] {
        add(format!("refusal 1 {} no body", KINDS[kind]));
        add(format!("refusal 1 {} one byte short", KINDS[kind]));
    }
    for kind in [5, 6, 7] {
        for after in ["mark", "settle", "sift"] {
            add(format!("refusal 9 {} after {after}", KINDS[kind]));
        }
    }
    for kind in [2, 3, 5, 8] {
        add(format!("limit last node {} met", KINDS[kind]));
        add(format!("limit last node {} passed", KINDS[kind]));
        add(format!("refusal 5 {} 65,535", KINDS[kind]));
    }
    for kind in [3, 8] {
        add(format!("refusal 4 {} of one threshold", KINDS[kind]));
        add(format!("refusal 4 {} of the file", KINDS[kind]));
    }
    for limit in ["of one threshold", "of the file"] {
        add(format!("refusal 4 joined area {limit}"));
    }
    for kind in [6, 7] {
        add(format!("limit answers 65 passed {}", KINDS[kind]));
    }
    for weight in [0, 1, u32::MAX] {
        add(format!("weight {weight}"));
    }
    for area in [0, 49, 50, 51, 99, 100, 149, 150, u32::MAX] {
        add(format!("area {area}"));
    }
    for (kind, pairs) in ORDERS {
        for (first, second) in pairs {
            add(format!("order {first} before {second} {}", KINDS[usize::from(kind)]));
        }
    }
    for what in ["seal", "mark", "settle", "sift"] {
        for answer in ANSWERS {
            add(format!("answer {what} {}", word(answer)));
        }
    }
    for what in ["guard", "condition", "prefixes", "residual", "search"] {
        for answer in ANSWERS {
            add(format!("step {what} {}", word(answer)));
        }
    }
    for (name, reason) in IMPOSSIBLE {
        all.retain(|(other, _)| other != name);
        all.push((name.to_string(), Some(reason)));
    }
    all.sort();
    all
}

impl Cover {
    fn hit(&mut self, name: impl Into<String>) {
        *self.counts.entry(name.into()).or_default() += 1;
    }

    fn hit_if(&mut self, applies: bool, name: impl Into<String>) {
        if applies {
            self.hit(name);
        }
    }

    /// Count one file.
    pub fn file(&mut self, input: &[u8], run: &Run) {
        self.files += 1;
        self.hit_if(input.is_empty(), "empty input");
        self.hit_if(input.len() == job::INPUT, "limit bytes 65,536 met");
        if let Some((10, _)) = run.refusal {
            self.hit("refusal 10");
            self.hit_if(input.len() == job::INPUT + 1, "limit bytes 65,537 passed");
            let inside = job::run(&input[..job::INPUT]);
            self.hit_if(inside.refusal.is_some(), "order 10 before another");
            return;
        }
        let mut blame = "";
        for (place, note) in run.notes.iter().enumerate() {
            self.note(run, note, place, input.len(), blame);
            if note.answer == Some(Answer::Contradiction) {
                blame = KINDS[usize::from(note.kind)];
            }
            for event in &note.events {
                self.event(event);
            }
        }
        self.hit_if(run.refusal.is_some() && run.planner.is_none(), "refused before the seal");
        self.hit_if(run.refusal.is_some() && !run.answers.is_empty(), "refused behind an answer");
        self.hit_if(run.refusal.is_none() && run.planner.is_none(), "file without seal");
        self.job_limits(run);
        self.areas(run);
        if let Some(planner) = &run.planner {
            self.rows(run, planner);
        }
    }

    fn note(&mut self, run: &Run, note: &Note, place: usize, length: usize, blame: &str) {
        let kind = if note.kind > 8 { 0 } else { usize::from(note.kind) };
        if let Some((&first, others)) = note.found.split_first() {
            for other in others {
                self.hit(format!("order {first} before {other} {}", KINDS[kind]));
            }
            self.refused(run, note, place, length - note.offset - 1, first, blame);
            return;
        }
        match note.record {
            Some(Record::Header { nodes }) => self.hit_if(nodes == 0, "header 0"),
            Some(Record::Threshold { bound, .. }) => self.bound(bound),
            Some(Record::Term { weight, .. }) => {
                self.hit_if([0, 1, u32::MAX].contains(&weight), format!("weight {weight}"));
            }
            Some(Record::Area { area, .. }) => self.area(area),
            _ => {}
        }
        if let Some(node) = node_field(note.record) {
            let last = run.header.is_some_and(|nodes| node + 1 == nodes);
            self.hit_if(last, format!("limit last node {} met", KINDS[kind]));
        }
        if let Some(answer) = note.answer {
            self.hit(format!("answer {} {}", KINDS[kind], word(answer)));
            self.answered(run, note, answer);
        }
    }

    fn bound(&mut self, bound: i64) {
        self.hit_if(bound < 0, "bound negative");
        self.hit_if(bound == 0, "bound 0");
        self.hit_if(bound == BOUND, "limit bound 2^52 met");
        self.hit_if(bound == -BOUND, "limit bound -2^52 met");
    }

    fn area(&mut self, area: u32) {
        let named = [0, 49, 50, 51, 99, 100, 149, 150, u32::MAX];
        self.hit_if(named.contains(&area), format!("area {area}"));
    }

    fn refused(
        &mut self,
        run: &Run,
        note: &Note,
        place: usize,
        rest: usize,
        number: u8,
        blame: &str,
    ) {
        let kind = if note.kind > 8 { 0 } else { usize::from(note.kind) };
        let name = KINDS[kind];
        let sealed = run.planner.is_some();
        match (number, note.record) {
            (2, _) => {
                self.hit(format!("refusal 2 kind 0x{:02x}", note.kind));
                self.hit(if sealed {
                    "refusal 2 after the seal"
                } else {
                    "refusal 2 before the seal"
                });
                self.hit_if(place == 0, "refusal 2 first record");
            }
            (1, _) => {
                self.hit_if(rest == 0, format!("refusal 1 {name} no body"));
                let whole = job::body_length(note.kind);
                self.hit_if(whole == Some(rest + 1), format!("refusal 1 {name} one byte short"));
            }
            (3, _) if place == 0 => self.hit(format!("refusal 3 {name} first record")),
            (3, _) => self.out_of_turn(kind, sealed),
            (9, _) => self.hit(format!("refusal 9 {name} after {blame}")),
            (5, record) => {
                let node = node_field(record);
                self.hit_if(node == run.header, format!("limit last node {name} passed"));
                self.hit_if(node == Some(65_535), format!("refusal 5 {name} 65,535"));
            }
            (6, Some(Record::Threshold { node, .. })) => {
                let last = run.thresholds.last().map_or(0, |last| last.node);
                self.hit(if node == last { "refusal 6 equal" } else { "refusal 6 below" });
            }
            (7, Some(Record::Threshold { bound, .. })) => {
                self.hit_if(bound == BOUND + 1, "refusal 7 2^52 + 1");
                self.hit_if(bound == -BOUND - 1, "refusal 7 -2^52 - 1");
                self.hit_if(bound == i64::MAX, "refusal 7 largest");
                self.hit_if(bound == i64::MIN, "refusal 7 smallest");
            }
            (8, Some(Record::Mark { value, .. })) => self.hit(format!("refusal 8 value {value}")),
            (4, Some(Record::Header { nodes })) => {
                self.hit_if(nodes == 4_097, "limit nodes 4,097 passed");
                self.hit_if(nodes == 65_535, "limit nodes 65,535 passed");
            }
            (4, Some(Record::Threshold { .. })) => self.hit("limit thresholds 1,025 passed"),
            (4, Some(Record::Settle | Record::Sift)) => {
                self.hit(format!("limit answers 65 passed {name}"));
            }
            (4, _) => {
                let one = run.terms_of(run.thresholds.len() - 1).len() >= job::TERMS_OF_ONE;
                let file = run.terms.len() >= job::TERMS;
                self.hit_if(one, format!("refusal 4 {name} of one threshold"));
                self.hit_if(one, "limit terms of one 1,025 passed");
                self.hit_if(file, format!("refusal 4 {name} of the file"));
                self.hit_if(file, "limit terms 4,097 passed");
                let areas = areas_by_condition(run.terms_of(run.thresholds.len() - 1));
                let joins = matches!(note.record, Some(Record::Area { condition, .. })
                    if areas.contains_key(&condition));
                self.hit_if(joins && one, "refusal 4 joined area of one threshold");
                self.hit_if(joins && file, "refusal 4 joined area of the file");
            }
            _ => {}
        }
    }

    fn out_of_turn(&mut self, kind: usize, sealed: bool) {
        let name = KINDS[kind];
        self.hit(match (kind, sealed) {
            (1, false) => "refusal 3 second header".to_string(),
            (_, true) => format!("refusal 3 {name} after the seal"),
            (3 | 8, false) => format!("refusal 3 {name} with no open threshold"),
            (_, false) => format!("refusal 3 {name} before the seal"),
        });
    }

    fn answered(&mut self, run: &Run, note: &Note, answer: Answer) {
        let decided = note.decided[0] != note.decided[1];
        let rows = run.planner.as_ref().map_or(0, Planner::row_count);
        match note.kind {
            6 => {
                self.hit_if(
                    answer == Answer::Changed && !decided,
                    "settle changed, nothing decided",
                );
                self.hit_if(decided, "settle decides");
                self.hit_if(note.taken[1] > rows, "row queue takes more than there are rows");
            }
            7 => {
                self.hit_if(note.taken[2] == 0, "sift with no residual row");
                self.hit_if(note.taken[2] > 1, "sift with several residual rows");
                let by_search = matches!(
                    note.events.last(),
                    Some(Event::Search { answer: Answer::Contradiction, .. })
                );
                let earlier =
                    answer == Answer::Contradiction && !by_search && note.visits > Some(0);
                self.hit_if(earlier, "sift contradiction, visits of an earlier search");
            }
            _ => {}
        }
    }

    fn event(&mut self, event: &Event) {
        match event {
            Event::Node { guard, condition, rows, reached, .. } => {
                if let Some(answer) = guard {
                    self.hit(format!("step guard {}", word(*answer)));
                    let alone = *answer == Answer::Contradiction && *rows > 0;
                    self.hit_if(alone, "guard contradiction, condition not run");
                }
                if let Some(answer) = condition {
                    self.hit(format!("step condition {}", word(*answer)));
                    let partial = *answer == Answer::Contradiction && reached < rows;
                    self.hit_if(partial, "condition contradiction, later rows not reached");
                }
            }
            Event::Prefixes { row, answer, moved } => {
                self.hit(format!("step prefixes {}", word(*answer)));
                for one in moved {
                    let to = if one.target > *row { "later" } else { "earlier" };
                    self.hit_if(one.lower && !one.equal, "prefix raises the longer's lower");
                    self.hit_if(one.upper && !one.equal, "prefix lowers the shorter's upper");
                    self.hit_if(one.lower && one.equal, format!("equal rows: lower to the {to}"));
                    self.hit_if(one.upper && one.equal, format!("equal rows: upper to the {to}"));
                }
            }
            Event::Residual { answer, branches, sure, never, .. } => {
                self.hit(format!("step residual {}", word(*answer)));
                let against = *answer == Answer::Contradiction;
                self.hit_if(against && !branches, "residual contradiction of the whole row");
                self.hit_if(against && *branches, "residual contradiction of one term");
                self.hit_if(!against && !branches, "residual tries no branch");
                self.hit_if(*sure > 0, "residual forces sure");
                self.hit_if(*never > 0, "residual forces never");
                self.hit_if(sure + never > 1, "residual forces several");
            }
            Event::Search {
                answer, words, visits, cut_short, interval, decided, heavy, ..
            } => {
                self.hit(format!("step search {}", word(*answer)));
                let size = if *words == 1 { "one word" } else { "many words" };
                let end = match answer {
                    _ if *words == 0 && *interval => "not planned, window too wide".to_string(),
                    _ if *words == 0 => "not planned, no interval left".to_string(),
                    _ if *cut_short => format!("cut short, {size}"),
                    Answer::Contradiction => format!("contradiction, {size}"),
                    _ => format!("hit, {size}"),
                };
                self.hit(format!("search {end}"));
                self.hit_if(*words > 0 && *decided, "search with decided terms");
                self.hit_if(*words > 0 && *heavy, "search with terms above the window");
                self.hit_if(*words == 4_091, "limit search words 4,091 planned");
                self.hit_if(*words > 4_091, "limit search words 4,092 planned");
                self.hit_if(*visits == 4_096, "limit visits 4,096 taken");
            }
        }
    }

    fn job_limits(&mut self, run: &Run) {
        self.hit_if(run.header == Some(job::NODES), "limit nodes 4,096 met");
        self.hit_if(run.thresholds.len() == job::THRESHOLDS, "limit thresholds 1,024 met");
        self.hit_if(run.terms.len() == job::TERMS, "limit terms 4,096 met");
        self.hit_if(run.answers.len() == job::ANSWERS, "limit answers 64 met");
        let full = |place| run.terms_of(place).len() == job::TERMS_OF_ONE;
        self.hit_if((0..run.thresholds.len()).any(full), "limit terms of one 1,024 met");
    }

    /// How the areas of each threshold join, sealed or not.
    fn areas(&mut self, run: &Run) {
        let mut earlier = BTreeSet::new();
        for terms in (0..run.thresholds.len()).map(|place| run.terms_of(place)) {
            let areas = areas_by_condition(terms);
            for (condition, places) in &areas {
                self.hit_if(
                    earlier.contains(condition),
                    "areas of one condition in two thresholds",
                );
                self.one_condition(terms, *condition, places);
            }
            earlier.extend(areas.into_keys());
        }
        let open = run.planner.is_none();
        let joined = (0..run.thresholds.len()).any(|place| joins(run.terms_of(place)));
        self.hit_if(joined && open && run.refusal.is_none(), "areas joined, file without seal");
        let before = run.notes.iter().rev().nth(1).and_then(|note| note.record);
        if let (Some(_), Some(Record::Area { condition, .. })) = (run.refusal, before) {
            let areas = areas_by_condition(run.terms_of(run.thresholds.len() - 1));
            self.hit_if(areas[&condition].len() > 1, "areas joined right before a refusal");
        }
    }

    /// The areas of one condition in one threshold, by their places there.
    fn one_condition(&mut self, terms: &[Term], condition: usize, places: &[usize]) {
        let plain = |term: &Term| !term.area && term.condition == condition;
        let (first, last) = (places[0], places[places.len() - 1]);
        self.hit_if(terms[first..].iter().any(plain), "area before a term of its condition");
        self.hit_if(terms[..last].iter().any(plain), "area behind a term of its condition");
        self.hit_if(first + 1 == terms.len(), "first area of a condition ends its threshold");
        if places.len() == 1 {
            return;
        }
        self.hit("areas joined");
        self.hit_if(places.len() == job::TERMS_OF_ONE, "limit areas joined 1,024 met");
        let mut between = terms[first..last].iter();
        let others = |term: &Term| term.condition != condition;
        self.hit_if(between.clone().any(plain), "areas joined around a term of their condition");
        self.hit_if(
            between.clone().any(|term| others(term) && !term.area),
            "areas joined around a term of another condition",
        );
        self.hit_if(
            between.any(|term| others(term) && term.area),
            "areas joined around areas of another condition",
        );
        let areas = || places.iter().map(|&place| u64::from(terms[place].number));
        let sum: u64 = areas().sum();
        let weight = job::area_weight(sum);
        let alone: u64 = areas().map(job::area_weight).sum();
        self.hit_if(weight == 0, "areas joined to 0");
        self.hit_if(sum % 100 == 50, "areas joined to a half");
        self.hit_if(weight > alone, "areas joined to more than one by one");
        self.hit_if(weight < alone, "areas joined to less than one by one");
        self.hit_if(sum > u64::from(u32::MAX), "areas joined, sum above 32 bits");
        self.hit_if(weight > u64::from(u32::MAX), "areas joined, weight above 32 bits");
    }

    /// What the rows of a sealed job look like.
    fn rows(&mut self, run: &Run, planner: &Planner) {
        let rows: Vec<_> = (0..planner.row_count()).map(|row| planner.row(row)).collect();
        self.hit_if(rows.len() == 1_024, "limit rows 1,024 met");
        for (most, (queue, full)) in
            planner.most.iter().zip([("node", 4_096), ("row", 1_024), ("residual", 1_024)])
        {
            let name = if queue == "node" { "4,096" } else { "1,024" };
            self.hit_if(*most == full, format!("limit {queue} queue {name} waiting"));
        }
        self.hit_if(planner.suffix().len() == 1_025, "limit gcds 1,025 built");
        for row in &rows {
            self.hit_if(row.guards.len() > 1, "row with several guards");
            let same = row.guards.windows(2).any(|pair| pair[0].1 == pair[1].1);
            self.hit_if(same, "guards with equal bounds");
            let same = row.terms.windows(2).any(|pair| pair[0].1 == pair[1].1);
            self.hit_if(same, "row with equal weights");
            self.hit_if(row.total > 1 << 32, "row total above 2^32");
            self.hit_if(row.links.len() > 1, "row linked to several");
            self.hit_if(
                row.terms.is_empty() && !row.links.is_empty(),
                "empty row linked to a longer",
            );
            let high = row.guards.last().is_some_and(|guard| guard.1 > row.total);
            self.hit_if(high, "bound above the total");
        }
        let raw = run.raw();
        for (place, one) in raw.iter().enumerate() {
            self.raw_list(run, planner, place, one);
        }
        self.equal_rows(run, &raw, planner, &rows);
    }

    fn raw_list(&mut self, run: &Run, planner: &Planner, place: usize, raw: &RawThreshold) {
        let own = planner.row_of(raw.node);
        let earlier = run.thresholds[..place].iter();
        let shared = earlier.clone().any(|other| planner.row_of(other.node) == own);
        self.hit_if(shared, "row shared by raw list");
        self.hit_if(shared && mixed(run), "row shared by term and area");
        let terms = run.terms_of(place);
        let other = |other: usize| {
            let others = run.terms_of(other);
            planner.row_of(run.thresholds[other].node) == own
                && others != terms
                && (joins(others) || joins(terms))
        };
        self.hit_if(shared && (0..place).any(other), "row shared by joined areas");
        self.hit_if(raw.conditions.is_empty(), "row without terms");
        let zeros = !raw.weights.is_empty() && raw.weights.iter().all(|&weight| weight == 0);
        self.hit_if(zeros, "row of zeros alone");
        self.hit_if(
            sorted(&raw.conditions).windows(2).any(|pair| pair[0] == pair[1]),
            "row with repeated conditions",
        );
        self.hit_if(raw.conditions.contains(&raw.node), "threshold lists itself");
        let later = || raw.conditions.iter().filter(|&&condition| condition > raw.node);
        self.hit_if(later().next().is_some(), "threshold lists a later node");
        let threshold = later().any(|&condition| planner.row_of(condition).is_some());
        self.hit_if(threshold, "threshold lists a later threshold");
    }

    /// Two rows with the same terms: their raw lists differ in order or parts,
    /// or in nothing but terms of weight 0.
    fn equal_rows(&mut self, run: &Run, raw: &[RawThreshold], planner: &Planner, rows: &[RowView]) {
        let mut first: BTreeMap<usize, (Vec<(usize, u64)>, bool)> = BTreeMap::new();
        for (place, raw) in raw.iter().enumerate() {
            let row = planner.row_of(raw.node).expect("a threshold");
            let pairs = raw.conditions.iter().copied().zip(raw.weights.iter().copied());
            first.entry(row).or_insert_with(|| {
                (pairs.filter(|pair| pair.1 > 0).collect(), joins(run.terms_of(place)))
            });
        }
        for (number, row) in rows.iter().enumerate() {
            for &other in row.links.iter().filter(|&&other| other > number) {
                if rows[other].terms == row.terms {
                    let [(own, own_joins), (others, others_join)] =
                        [&first[&number], &first[&other]];
                    let zeros = own == others;
                    self.hit(if zeros {
                        "rows equal only without zeros"
                    } else {
                        "rows equal only after merging"
                    });
                    let turned = !zeros && sorted(own) == sorted(others);
                    self.hit_if(
                        turned && (*own_joins || *others_join),
                        "rows equal but for their order, with joined areas",
                    );
                }
            }
        }
    }

    /// The table; the number of counters that should not be 0, or should be.
    pub fn table(&self) -> (String, usize) {
        let mut out = format!("coverage of {} files\n", self.files);
        let mut wrong = 0;
        let known = expected();
        for (name, reason) in &known {
            let count = self.counts.get(name).copied().unwrap_or(0);
            let remark = match (count, reason) {
                (0, Some(reason)) => format!("  impossible: {reason}"),
                (0, None) => "  MISSING".to_string(),
                (_, Some(_)) => "  MET THOUGH IMPOSSIBLE".to_string(),
                (_, None) => String::new(),
            };
            wrong += usize::from((count == 0) == reason.is_none());
            out += &format!("{count:>9}  {name}{remark}\n");
        }
        for (name, count) in &self.counts {
            let minor = name.starts_with("refusal 2 kind") || name.starts_with("refusal 8 value");
            if !minor && !known.iter().any(|(other, _)| other == name) {
                out += &format!("{count:>9}  {name}  NOT IN THE TABLE\n");
                wrong += 1;
            }
        }
        (out, wrong)
    }
}

/// Whether the file has terms of both kinds.
fn mixed(run: &Run) -> bool {
    let has = |kind: u8| run.notes.iter().any(|note| note.kind == kind);
    has(3) && has(8)
}

/// The places of a threshold's areas, by condition.
fn areas_by_condition(terms: &[Term]) -> BTreeMap<usize, Vec<usize>> {
    let mut areas: BTreeMap<usize, Vec<usize>> = BTreeMap::new();
    for (place, term) in terms.iter().enumerate().filter(|(_, term)| term.area) {
        areas.entry(term.condition).or_default().push(place);
    }
    areas
}

/// Whether two areas of a threshold have one condition.
fn joins(terms: &[Term]) -> bool {
    areas_by_condition(terms).values().any(|places| places.len() > 1)
}

fn sorted<T: Copy + Ord>(list: &[T]) -> Vec<T> {
    let mut list = list.to_vec();
    list.sort_unstable();
    list
}

fn node_field(record: Option<Record>) -> Option<usize> {
    match record? {
        Record::Threshold { node, .. } | Record::Mark { node, .. } => Some(node),
        Record::Term { condition, .. } | Record::Area { condition, .. } => Some(condition),
        _ => None,
    }
}
