//! A booking program: the plates that a job needs whatever else is chosen, and those that it never does.

use planner::{Job, Planner, Value};

fn main() -> Result<(), planner::Failure> {
    // Sheet 4 is printed exactly if tiles 0, 1 and 2, of 4, 3 and 2 panels, fill 6 of it. It is booked.
    let mut job = Job::new(5);
    job.threshold(4, 6).term(0, 4).term(1, 3).term(2, 2);
    job.seal().mark_sure(4).settle();

    let mut planner = Planner::new();
    let plan = planner.plan(job.as_bytes());
    for (node, value) in plan.forced()? {
        println!("{} {node}", if value == Value::Sure { "book" } else { "leave out" });
    }
    Ok(())
}
