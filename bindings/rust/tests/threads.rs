//! Many threads at once, each with its own work area: every vector comes out as alone.

mod common;

use std::sync::Arc;
use std::thread;

use planner::Planner;

#[test]
fn every_vector_in_every_thread() {
    let vectors = Arc::new(common::vectors());
    let threads: Vec<_> = (0..16)
        .map(|first| {
            let vectors = Arc::clone(&vectors);
            thread::spawn(move || {
                let mut planner = Planner::new();
                for turn in 0..vectors.len() {
                    let vector = &vectors[(first * 17 + turn) % vectors.len()];
                    assert_eq!(
                        planner.plan_listed(&vector.file).1,
                        vector.listing,
                        "{}",
                        vector.name
                    );
                }
            })
        })
        .collect();
    for one in threads {
        one.join().expect("no thread fails");
    }
}

#[test]
fn a_planner_goes_to_another_thread() {
    let vectors = common::vectors();
    let mut planner = Planner::new();
    planner.plan(&vectors[1].file);
    let file = vectors[0].file.clone();
    let text =
        thread::spawn(move || planner.plan_listed(&file).1.to_string()).join().expect("it plans");
    assert_eq!(text, vectors[0].listing);
}
