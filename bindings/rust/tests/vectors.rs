//! Every vector: the listing, and what the safe interface says of the same file.

mod common;

use planner::{Answer, Failure, Job, Plan, Planner, Reason, Refusal, Step, Value};

/// The listing, made of what the safe interface gives.
fn listed(plan: Plan<'_>) -> String {
    let mut lines: Vec<String> = plan.answers().map(answer_line).collect();
    if plan.sealed() {
        lines.extend(plan.nodes().enumerate().filter_map(node_line));
        lines.extend(plan.rows().enumerate().map(|(number, row)| {
            let upper = row.upper.map_or("-".to_string(), |upper| upper.to_string());
            format!("row {number} {} {} {} {upper}\n", row.known, row.possible, row.lower)
        }));
    }
    let count = |wanted: Value| plan.nodes().filter(|&value| value == wanted).count();
    lines.push(match plan.refusal() {
        None => format!("end {} {}\n", count(Value::Sure), count(Value::Never)),
        Some(Refusal { reason, offset }) => format!("refused {} at {offset}\n", reason.number()),
    });
    lines.concat()
}

fn answer_line(answer: Answer) -> String {
    let word = |step: Step| ["unchanged", "changed", "contradiction"][step as usize];
    match answer {
        Answer::Settle(step) => format!("settle {}\n", word(step)),
        Answer::Sift { step, visits, .. } => format!("sift {} {visits}\n", word(step)),
        other => panic!("no line for {other:?}"),
    }
}

fn node_line((node, value): (usize, Value)) -> Option<String> {
    match value {
        Value::Sure => Some(format!("node {node} sure\n")),
        Value::Never => Some(format!("node {node} never\n")),
        Value::Undecided => None,
    }
}

#[test]
fn every_vector() {
    let mut planner = Planner::new();
    let mut refused = [false; 11];
    for vector in common::vectors() {
        let (plan, text) = planner.plan_listed(&vector.file);
        assert_eq!(text, vector.listing, "{}", vector.name);
        assert_eq!(listed(plan), vector.listing, "{}", vector.name);
        refused[plan.refusal().map_or(0, |refusal| refusal.reason.number().into())] = true;
    }
    assert_eq!(refused, [true; 11], "the vectors have every refusal");
}

#[test]
fn last_step_and_rows_of_file_b() {
    let vectors = common::vectors();
    let file = &vectors.iter().find(|vector| vector.name == "file B").expect("it is there").file;
    let mut planner = Planner::new();
    let plan = planner.plan(file);
    assert_eq!(plan.last(), Step::Contradiction);
    assert_eq!(
        (plan.row_of(4), plan.row_of(5), plan.row_of(0), plan.row_of(6)),
        (Some(0), Some(0), None, None)
    );
    let rows: Vec<_> =
        plan.rows().map(|row| (row.known, row.possible, row.lower, row.upper)).collect();
    assert_eq!(rows, [(0, 18, 6, Some(8))]);
    assert_eq!(plan.nodes().len(), 6);
    assert_eq!(
        (plan.node(4), plan.node(5), plan.node(6)),
        (Some(Value::Sure), Some(Value::Never), None)
    );
}

/// What the vectors' words say of a file, written by the builder.
fn written(items: &[Vec<String>]) -> Option<Job> {
    let field = |item: &[String], at: usize| item[at].parse::<i64>().ok();
    let half = |item: &[String], at: usize| u16::try_from(field(item, at)?).ok();
    let word = |item: &[String], at: usize| u32::try_from(field(item, at)?).ok();
    let (header, rest) = items.split_first()?;
    let mut job = (header[0] == "header").then(|| half(header, 1))?.map(Job::new)?;
    for item in rest {
        match item[0].as_str() {
            "threshold" => job.threshold(half(item, 1)?, field(item, 2)?),
            "term" => job.term(half(item, 1)?, word(item, 2)?),
            "area" => job.area(half(item, 1)?, word(item, 2)?),
            "seal" => job.seal(),
            "mark" if item[2] == "1" => job.mark_sure(half(item, 1)?),
            "mark" if item[2] == "0" => job.mark_never(half(item, 1)?),
            "settle" => job.settle(),
            "sift" => job.sift(),
            _ => return None,
        };
    }
    Some(job)
}

#[test]
fn the_builder_writes_the_vectors() {
    let mut count = 0;
    for vector in common::vectors() {
        if let Some(job) = written(&vector.items) {
            assert_eq!(job.as_bytes(), vector.file, "{}", vector.name);
            count += 1;
        }
    }
    assert!(count > 200, "the builder wrote only {count}");
}

#[test]
fn what_forced_gives() {
    let mut planner = Planner::new();
    let mut met = [0; 4];
    for vector in common::vectors() {
        let marks = vector.items.iter().rev().take_while(|item| item[0] == "mark").count();
        let (plan, text) = planner.plan_listed(&vector.file);
        let forced = plan.forced().map(|nodes| nodes.filter_map(node_line).collect::<String>());
        let shown = text.split_inclusive('\n').filter(|line| line.starts_with("node "));
        assert!(plan.contradicted() || !text.contains("contradiction"), "{}", vector.name);
        let case = match forced {
            Ok(nodes) => {
                assert!(plan.refusal().is_none() && marks == 0, "{}", vector.name);
                assert_eq!(nodes, shown.collect::<String>(), "{}", vector.name);
                0
            }
            Err(Failure::Contradicted) => 1,
            Err(Failure::Refused(refusal)) => {
                assert_eq!(Some(refusal), plan.refusal());
                2
            }
            Err(Failure::Unsettled(count)) => {
                assert_eq!(count, marks, "{}", vector.name);
                3
            }
            Err(other) => panic!("{other}"),
        };
        met[case] += 1;
    }
    assert!(met.iter().all(|&count| count > 0), "{met:?}");
}

#[test]
fn a_contradiction_that_no_line_shows() {
    let mut planner = Planner::new();
    let mut job = Job::new(2);
    job.seal().mark_sure(1).mark_never(1);
    let (plan, text) = planner.plan_listed(job.as_bytes());
    assert_eq!((text, plan.refusal()), ("node 1 sure\nend 1 0\n", None));
    assert!(plan.contradicted() && matches!(plan.forced().err(), Some(Failure::Contradicted)));
    assert!(format!("{plan:?}").contains("contradicted: true"));
    job.settle();
    let plan = planner.plan(job.as_bytes());
    assert_eq!(plan.refusal(), Some(Refusal { reason: Reason::Contradicted, offset: 12 }));
    assert!(plan.contradicted());
}

#[test]
fn marks_that_wait() {
    let mut planner = Planner::new();
    let mut job = Job::new(2);
    job.threshold(1, 1).term(0, 1).seal().mark_sure(0).mark_never(1);
    let plan = planner.plan(job.as_bytes());
    assert_eq!((plan.contradicted(), plan.unsettled_marks()), (false, 2));
    assert!(matches!(plan.forced().err(), Some(Failure::Unsettled(2))));
    job.settle();
    let plan = planner.plan(job.as_bytes());
    assert_eq!((plan.contradicted(), plan.unsettled_marks()), (true, 0));
}

#[test]
fn one_version() {
    assert_eq!(planner::version(), env!("CARGO_PKG_VERSION"));
}

#[test]
fn nothing_of_an_earlier_file_is_left() {
    let vectors = common::vectors();
    let mut used = Planner::new();
    for pair in vectors.windows(2) {
        used.plan(&pair[0].file);
        let (_, text) = used.plan_listed(&pair[1].file);
        assert_eq!(text, pair[1].listing, "{} after {}", pair[1].name, pair[0].name);
    }
}

#[test]
fn refusals_in_words() {
    let mut planner = Planner::new();
    let refusal = planner.plan(&[9]).refusal().expect("no such kind");
    assert_eq!(refusal, Refusal { reason: Reason::UnknownKind, offset: 0 });
    assert_eq!(refusal.to_string(), "refused at byte 0: there is no such kind of record");
}
