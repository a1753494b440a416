//! Times the planner and the original Rust on the same files, in turns, in one process.
//! usage: bench [SEED]                              tables of all families
//!        bench --write FOLDER [SEED]               the files of each family
//!        bench --programs PLANNER ORACLE [SEED]    two programs from start to end, on the largest files

mod families;
mod programs;

use std::hint::black_box;
use std::time::{Duration, Instant};

use families::{Family, Random, FAMILIES};
use planner::{Plan, Planner, Step, Value};
use threshold_oracle::job::{self, Run};

fn main() {
    std::panic::set_hook(Box::new(told));
    let words: Vec<String> = std::env::args().skip(1).collect();
    let words: Vec<&str> = words.iter().map(String::as_str).collect();
    let seed = |word: &str| word.parse().expect("a seed is a number");
    match words[..] {
        [] => tables(1),
        ["--write", folder] => write(folder, 1),
        ["--write", folder, word] => write(folder, seed(word)),
        ["--programs", planner, oracle] => programs::table(planner, oracle, 1),
        ["--programs", planner, oracle, word] => programs::table(planner, oracle, seed(word)),
        [word] => tables(seed(word)),
        _ => panic!("usage: bench [SEED]"),
    }
}

/// Bad arguments, a file or a program that is missing and a write that fails end the benchmark, each in a sentence.
fn told(panic: &std::panic::PanicHookInfo<'_>) {
    let said = panic.payload();
    let plain = said.downcast_ref::<&str>().copied();
    eprintln!(
        "bench: {}",
        plain.or(said.downcast_ref::<String>().map(String::as_str)).unwrap_or("it broke off")
    );
    std::process::exit(1);
}

/// Best and median of one side.
#[derive(Clone, Copy, Default)]
struct Times {
    best: f64,
    median: f64,
}

fn tables(seed: u64) {
    println!("Microseconds a file: best (median) of many runs, both sides in turns, seed {seed}.");
    println!("A listing plans its file again; the last column is what it takes beyond that.\n");
    println!("| Family | planner | Rust | best / best | medians | listing |");
    println!("|---|---|---|---|---|---|");
    for family in &FAMILIES {
        let files = (family.make)(&mut Random::new(seed), 1, 1);
        let [ours, rust, listing] = measured(&files);
        println!(
            "| {} | {:.1} ({:.1}) | {:.1} ({:.1}) | {:.2} | {:.2} | {:.1} |",
            family.name,
            ours.best,
            ours.median,
            rust.best,
            rust.median,
            ours.best / rust.best,
            ours.median / rust.median,
            (listing.best - 2.0 * ours.best).max(0.0)
        );
    }
    let empty = measured(&[Vec::new()])[0].best;
    println!("\nAn empty file takes {empty:.1}: every buffer is cleared, however small the job.\n");
    println!(
        "Sizes doubled, best times: an eighth, a quarter, a half and the whole of each family.\n"
    );
    println!("| Family | planner | above an empty file, each by the one before | Rust | each by the one before |");
    println!("|---|---|---|---|---|");
    FAMILIES.iter().filter(|family| family.grows).for_each(|family| doubled(family, seed, empty));
}

fn doubled(family: &Family, seed: u64, empty: f64) {
    let sizes = [1, 2, 4, 8].map(|n| {
        let [ours, rust, _] = measured(&(family.make)(&mut Random::new(seed), n, 8));
        [ours.best, ours.best - empty, rust.best]
    });
    let listed = |side: usize| sizes.map(|size| format!("{:.1}", size[side])).join(" ");
    let grown = |side: usize| {
        let steps: Vec<_> =
            sizes.windows(2).map(|pair| format!("{:.1}", pair[1][side] / pair[0][side])).collect();
        steps.join(" ")
    };
    println!("| {} | {} | {} | {} | {} |", family.name, listed(0), grown(1), listed(2), grown(2));
}

/// The planner, the Rust, and the planner with its listing, as averages over the files.
fn measured(files: &[Vec<u8>]) -> [Times; 3] {
    let mut sums = [Times::default(); 3];
    for file in files {
        for (sum, one) in
            sums.iter_mut().zip(on_file(file, Duration::from_millis(600) / files.len() as u32))
        {
            sum.best += one.best / files.len() as f64;
            sum.median += one.median / files.len() as f64;
        }
    }
    sums
}

fn on_file(file: &[u8], budget: Duration) -> [Times; 3] {
    let mut planner = Planner::new();
    assert!(same(planner.plan(file), &job::plan(file)), "the two sides differ");
    let mut runs: [Vec<f64>; 3] = Default::default();
    let begun = Instant::now();
    while begun.elapsed() < budget || runs[0].len() < 20 {
        runs[0].push(timed(|| planner.plan(black_box(file)).last()));
        runs[1].push(timed(|| job::plan(black_box(file))));
        runs[2].push(timed(|| planner.plan_listed(black_box(file)).1.len()));
    }
    runs.map(|mut times| {
        times.sort_unstable_by(f64::total_cmp);
        Times { best: times[0], median: times[times.len() / 2] }
    })
}

/// Microseconds, giving back its memory included.
fn timed<T>(run: impl FnOnce() -> T) -> f64 {
    let begun = Instant::now();
    drop(black_box(run()));
    begun.elapsed().as_secs_f64() * 1e6
}

/// The files of every family, for other programs.
fn write(folder: &str, seed: u64) {
    for (number, family) in FAMILIES.iter().enumerate() {
        for (place, file) in (family.make)(&mut Random::new(seed), 1, 1).iter().enumerate() {
            let path = format!("{folder}/{number:02}-{place}.job");
            std::fs::write(&path, file).unwrap_or_else(|error| panic!("{path}: {error}"));
            println!("{path} {}", family.name);
        }
    }
}

/// Both found the same.
fn same(plan: Plan<'_>, run: &Run<false>) -> bool {
    let refusal = plan.refusal().map(|refusal| (refusal.reason.number(), refusal.offset));
    let mut equal = refusal == run.refusal && plan.last() as usize == run.last as usize;
    let answers: Vec<_> =
        run.answers.iter().map(|(answer, visits)| (*answer as usize, *visits)).collect();
    let ours: Vec<_> = plan.answers().map(numbered).collect();
    equal &= answers == ours;
    if let Some(planner) = &run.planner {
        let value = |node| match planner.decided(node) {
            Some(true) => Value::Sure,
            Some(false) => Value::Never,
            None => Value::Undecided,
        };
        equal &= plan.nodes().enumerate().all(|(node, ours)| ours == value(node));
        equal &= plan.rows().len() == planner.row_count();
        equal &= plan.rows().enumerate().all(|(row, ours)| {
            let (known, possible, lower, upper) = planner.row(row).figures;
            (known, possible, lower) == (ours.known.into(), ours.possible.into(), ours.lower.into())
                && upper == ours.upper.map(i128::from)
        });
    }
    equal
}

fn numbered(answer: planner::Answer) -> (usize, Option<u64>) {
    let number = |step: Step| step as usize;
    match answer {
        planner::Answer::Settle(step) => (number(step), None),
        planner::Answer::Sift { step, visits, .. } => (number(step), Some(visits.into())),
        other => panic!("no oracle answers {other:?}"),
    }
}
