//! Two programs from start to end on the largest files, in turns: each reads a job file and prints its listing.

use std::io::Write;
use std::process::{Command, Stdio};
use std::time::Instant;

use crate::families::{Random, FAMILIES};

const TURNS: usize = 101;

pub fn table(planner: &str, oracle: &str, seed: u64) {
    println!(
        "\nMicroseconds from start to end, best (median) of {TURNS} runs in turns, seed {seed}.\n"
    );
    println!("| File | bytes | program | oracle | best / best | medians |");
    println!("|---|---|---|---|---|---|");
    for family in FAMILIES.iter().filter(|family| family.grows) {
        for file in (family.make)(&mut Random::new(seed), 1, 1) {
            let mut times = [Vec::new(), Vec::new()];
            for _ in 0..TURNS {
                let said = [planner, oracle].map(|program| {
                    let begun = Instant::now();
                    let text = listing(program, &file);
                    (begun.elapsed().as_secs_f64() * 1e6, text)
                });
                assert!(said[0].1 == said[1].1, "{}: two listings", family.name);
                times.iter_mut().zip(said).for_each(|(list, one)| list.push(one.0));
            }
            let [ours, theirs] = times.map(|mut list| {
                list.sort_unstable_by(f64::total_cmp);
                (list[0], list[TURNS / 2])
            });
            println!(
                "| {} | {} | {:.0} ({:.0}) | {:.0} ({:.0}) | {:.2} | {:.2} |",
                family.name,
                file.len(),
                ours.0,
                ours.1,
                theirs.0,
                theirs.1,
                ours.0 / theirs.0,
                ours.1 / theirs.1
            );
        }
    }
}

fn listing(program: &str, file: &[u8]) -> Vec<u8> {
    let started = Command::new(program)
        .stdin(Stdio::piped())
        .stdout(Stdio::piped())
        .stderr(Stdio::null())
        .spawn();
    let mut child = started.unwrap_or_else(|error| panic!("{program}: {error}"));
    child.stdin.take().expect("it is piped").write_all(file).expect("the program reads");
    child.wait_with_output().expect("the program ends").stdout
}
