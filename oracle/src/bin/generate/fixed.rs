//! The fixed list of named files: document 01's own cases, every refusal at every
//! place and the order between them, and every limit met and passed by one. The
//! short ones stand in fixed.txt, the long ones are made here.

use crate::records::File;

type Named = Vec<(String, Vec<u8>)>;

const SHORT: &str = include_str!("fixed.txt");
const JOB: &str = "header 6; threshold 4 6; term 0 5; term 1 5";
const PAST: i64 = threshold_oracle::job::BOUND + 1;

pub fn list() -> Named {
    let mut all = Named::new();
    for line in SHORT.lines().filter(|line| !line.is_empty() && !line.starts_with('#')) {
        let (name, script) = line.split_once('|').expect("name | records");
        add(&mut all, name.trim(), script);
    }
    orders_at_limits(&mut all);
    limits(&mut all);
    queues(&mut all);
    slivers(&mut all);
    all
}

fn add(all: &mut Named, name: &str, script: &str) {
    let over = "$sealed; mark 4 1; mark 4 0";
    let script =
        script.replace("$over", over).replace("$sealed", "$job; seal").replace("$job", JOB);
    let mut file = File::default();
    file.script(&script);
    all.push((name.to_string(), file.0));
}

fn each(all: &mut Named, list: &[(&str, String)]) {
    for (name, script) in list {
        add(all, name, script);
    }
}

/// One row of these weights with both bounds decided, then a sift.
fn windowed(weights: &[u32], low: i64, high: i64) -> String {
    let count = weights.len();
    let terms: String =
        weights.iter().enumerate().map(|(at, one)| format!("term {at} {one};")).collect();
    let above = count + 1;
    let nodes = count + 2;
    format!(
        "header {nodes}; threshold {count} {low}; {terms} threshold {above} {high}; {terms} \
         seal; mark {count} 1; mark {above} 0; sift"
    )
}

fn thresholds(count: usize) -> String {
    (0..count).map(|node| format!("threshold {node} 1;")).collect()
}

fn terms(kind: &str, count: usize) -> String {
    (0..count).map(|_| format!("{kind} 0 1;")).collect()
}

fn orders_at_limits(all: &mut Named) {
    let full = format!("header 4096; {}", thresholds(1_024));
    let long = format!("header 6; threshold 4 6; {}", terms("term", 1_024));
    let asked = format!("$sealed; {}", "settle; sift; ".repeat(32));
    each(
        all,
        &[
            ("1 before 4 threshold", format!("{full} hex 02")),
            ("3 before 4 threshold", format!("{full} seal; threshold 2000 1")),
            ("5 before 4 threshold", format!("{full} threshold 4096 1")),
            ("6 before 4 threshold", format!("{full} threshold 1023 1")),
            ("7 before 4 threshold", format!("{full} threshold 1024 {}", -PAST)),
            ("1 before 4 term", format!("{long} hex 030000")),
            ("3 before 4 term", format!("{long} seal; term 0 1")),
            ("5 before 4 term", format!("{long} term 6 1")),
            ("1 before 4 area", format!("{long} hex 080000")),
            ("3 before 4 area", format!("{long} seal; area 0 1")),
            ("5 before 4 area", format!("{long} area 6 1")),
            ("9 before 4 settle", format!("{asked} mark 4 1; mark 4 0; settle")),
            ("9 before 4 sift", format!("{asked} mark 4 1; mark 4 0; sift")),
        ],
    );
    all.push(("10 before 2".to_string(), vec![0xff; 65_537]));
}

/// Every limit met and passed by one.
fn limits(all: &mut Named) {
    let full = format!("header 4096; {}", thresholds(1_024));
    let long = |kind: &str| format!("header 6; threshold 4 6; {}", terms(kind, 1_024));
    let four: String =
        (0..4).map(|node| format!("threshold {node} 1;") + &terms("term", 1_024)).collect();
    let four = format!("header 4096; {four} threshold 4 0;");
    let asked = format!("$sealed; {}", "settle; ".repeat(63));
    each(
        all,
        &[
            ("limit thresholds 1,024 met", format!("{full} seal; settle")),
            ("limit thresholds 1,025 passed", format!("{full} threshold 1024 1; seal")),
            ("limit terms of one 1,024 met", format!("{} seal; mark 0 1; settle", long("term"))),
            ("limit areas of one 1,024 met", format!("{} seal; mark 0 1; settle", long("area"))),
            ("limit terms of one 1,025 passed", format!("{} term 0 1; seal", long("term"))),
            (
                "limit terms of one 1,025 passed by an area",
                format!("{} area 0 100; seal", long("term")),
            ),
            ("limit terms 4,096 met", format!("{four} seal; mark 0 1; settle")),
            ("limit terms 4,097 passed", format!("{four} term 0 1; seal")),
            ("limit terms 4,097 passed by an area", format!("{four} area 0 100; seal")),
            ("limit answers 64 met", format!("{asked} sift")),
            ("limit answers 65 passed by a settle", format!("{asked} sift; settle")),
            ("limit answers 65 passed by a sift", format!("{asked} settle; sift; mark 0 1")),
            ("limit bytes 65,536 met", format!("header 3; seal; {}", "mark 2 1; ".repeat(16_383))),
            (
                "limit bytes 65,537 passed",
                format!("header 3; seal; {} settle", "mark 2 1; ".repeat(16_383)),
            ),
        ],
    );
    for (name, high) in [("4,091 planned", 261_824), ("4,092 not planned", 261_825)] {
        let weights: Vec<u32> = (0..1_024).map(|at| 300 + at % 2).collect();
        add(all, &format!("limit search words {name}"), &windowed(&weights, high - 1, high));
    }
    let weights: Vec<u32> = (0..1_024).map(|at| 7 - 2 * u32::from(at % 2 == 1)).collect();
    add(all, "limit gcds 1,025 built", &windowed(&weights, 12, 13));
}

/// Queues filled to their length.
fn queues(all: &mut Named) {
    let marks: String = (0..4_096).map(|node| format!("mark {node} {};", node % 2)).collect();
    add(
        all,
        "limit node queue 4,096 waiting",
        &format!("header 4096; threshold 9 5; term 0 4; term 1 3; seal; {marks} settle"),
    );
    add(all, "limit node queue 4,096 left", &format!("header 4096; seal; {marks}"));
    let chain = |weights: [u32; 3]| -> String {
        let terms: String =
            weights.iter().enumerate().map(|(at, one)| format!("term {at} {one};")).collect();
        let rows = (0..1_024).map(|at| {
            let bound = if at == 0 {
                6
            } else if at == 1_023 {
                8
            } else {
                7
            };
            format!("threshold {} {bound}; {terms} term {} 0;", at + 3, at + 3)
        });
        format!("header 1027; {} seal;", rows.collect::<String>())
    };
    let sure: String = (0..1_024).map(|at| format!("mark {} 1;", at + 3)).collect();
    add(
        all,
        "limit residual queue 1,024 waiting, hits",
        &format!("{} mark 3 1; mark 1026 0; sift", chain([5, 4, 3])),
    );
    add(
        all,
        "limit residual queue 1,024 waiting, contradiction",
        &format!("{} mark 3 1; mark 1026 0; settle; sift", chain([5, 5, 5])),
    );
    add(all, "limit row queue 1,024 waiting", &format!("{} {sure} settle", chain([5, 4, 3])));
}

/// Areas of one condition up to the limits, which count each of them.
fn slivers(all: &mut Named) {
    let areas = |condition: usize, area: u32, count: usize| -> String {
        format!("area {condition} {area};").repeat(count)
    };
    let most = u32::MAX;
    let full = format!("header 3; threshold 2 43980465101; {}", areas(0, most, 1_024));
    let thresholds = |counts: &[usize]| -> String {
        let counts = counts.iter().enumerate();
        counts
            .map(|(node, &count)| format!("threshold {node} 5;") + &areas(node, 1, count))
            .collect()
    };
    let four = format!("header 6; {}", thresholds(&[1_024; 4]));
    // The last threshold is not full when the file is.
    let five = format!("header 6; {}", thresholds(&[1_024, 1_024, 1_024, 512, 512]));
    let each_in_four = |node: usize| -> String {
        let turn: String = (4..260).map(|tile| format!("area {tile} 30;")).collect();
        format!("threshold {node} {};", 250 + 2 * node) + &turn.repeat(4)
    };
    let tiles: String = (0..4).map(each_in_four).collect();
    let different: String = (1..1_025).map(|tile| format!("area {tile} 149;")).collect();
    let small = |node: usize| format!("threshold {node} 1;") + &areas(node, 30, 4);
    let small: String = (0..1_024).map(small).collect();
    each(
        all,
        &[
            (
                "100 areas weigh 2^32 - 1",
                format!("header 4; threshold 2 4294967295; {}", areas(0, most, 100))
                    + "threshold 3 1; term 0 4294967295; seal; mark 2 1; settle",
            ),
            (
                "101 areas weigh more than 2^32",
                format!("header 3; threshold 2 4337916968; {}", areas(0, most, 100))
                    + "term 1 1; area 0 4294967295; seal; mark 2 1; settle; mark 1 0; settle",
            ),
            ("limit areas of one 1,024 joined", format!("{full} seal; mark 2 1; settle")),
            ("limit areas of one 1,025 passed, joined", format!("{full} area 0 1; seal")),
            ("limit areas of one 1,025 passed by another", format!("{full} area 1 1; seal")),
            ("limit areas of one 1,025 passed by a term", format!("{full} term 0 1; seal")),
            ("limit areas 4,096 joined", format!("{four} threshold 4 0; seal; mark 0 1; settle")),
            ("limit areas 4,097 passed", format!("{four} threshold 4 0; area 3 1; seal")),
            ("limit areas 4,097 passed, joined", format!("{five} area 4 1; seal")),
            ("limit areas 4,097 passed by a term", format!("{five} term 4 1; seal")),
            (
                "1,024 areas, each tile in 4 slivers",
                format!("header 260; {tiles} seal; mark 2 1; mark 4 0; mark 5 0; settle"),
            ),
            (
                "1,024 areas of different tiles",
                format!("header 1025; threshold 0 1024; {different} seal; mark 0 1; settle"),
            ),
            (
                "1,024 thresholds of 4 slivers",
                format!("header 1024; {small} seal; mark 0 1; settle; mark 1 0; sift"),
            ),
        ],
    );
}
