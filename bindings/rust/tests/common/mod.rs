//! The repository's vectors: job files and their listings, read from the form of vectors/form.py; and seeded random numbers.
#![allow(dead_code)]

pub mod raw;

use std::path::Path;

pub struct Vector {
    pub name: String,
    pub items: Vec<Vec<String>>,
    pub file: Vec<u8>,
    pub listing: String,
}

pub fn vectors() -> Vec<Vector> {
    let path = Path::new(env!("CARGO_MANIFEST_DIR")).join("../../vectors/vectors.txt");
    let text = std::fs::read_to_string(&path)
        .unwrap_or_else(|error| panic!("{}: {error}", path.display()));
    let list: Vec<Vector> = text.split("\n= ").skip(1).map(vector).collect();
    let said = format!("# {} vectors", list.len());
    assert!(text.lines().any(|line| line == said), "vectors are missing from the list");
    list
}

fn vector(block: &str) -> Vector {
    let mut lines = block.lines();
    let name = lines.next().expect("a name").to_string();
    let part = |mark: char| {
        let marked = block.lines().skip(1).filter_map(|line| line.strip_prefix(mark));
        marked.collect::<Vec<_>>().join(";")
    };
    let items_of_file = items(&part('<'));
    let file = items_of_file.iter().flat_map(|item| record(item)).collect();
    let listing = items(&part('>')).iter().map(|item| item.join(" ") + "\n").collect();
    Vector { name, items: items_of_file, file, listing }
}

/// Items between semicolons, each as its words; `[N: ..]` is repeated, and a field `a+d` or `a-d` there moves by d each time.
fn items(text: &str) -> Vec<Vec<String>> {
    let mut list = Vec::new();
    let mut rest = text;
    while let Some(start) = rest.find(|c: char| c != ' ' && c != ';') {
        rest = &rest[start..];
        if let Some(run) = rest.strip_prefix('[') {
            let (run, behind) = run.split_once(']').expect("a closing bracket");
            let (count, group) = run.split_once(':').expect("a count");
            for turn in 0..count.parse().expect("a number") {
                list.extend(group.split(';').map(|item| words(item, Some(turn))));
            }
            rest = behind;
        } else {
            let end = rest.find([';', '[']).unwrap_or(rest.len());
            list.push(words(&rest[..end], None));
            rest = &rest[end..];
        }
    }
    list
}

fn words(item: &str, turn: Option<i64>) -> Vec<String> {
    let words: Vec<&str> = item.split_whitespace().collect();
    let keep = |word: &str| word.to_string();
    match turn {
        Some(turn) if words[0] != "hex" => words.iter().map(|word| moved(word, turn)).collect(),
        _ => words.into_iter().map(keep).collect(),
    }
}

fn moved(word: &str, turn: i64) -> String {
    let Some(at) = word[1..].find(['+', '-']).map(|at| at + 1) else { return word.to_string() };
    match (word[..at].parse::<i64>(), word[at..].parse::<i64>()) {
        (Ok(first), Ok(step)) => (first + turn * step).to_string(),
        _ => word.to_string(),
    }
}

fn record(item: &[String]) -> Vec<u8> {
    let field = |at: usize| item[at].parse::<i64>().expect("a number");
    let half = |at: usize| field(at).to_le_bytes()[..2].to_vec();
    let word = |at: usize| field(at).to_le_bytes()[..4].to_vec();
    match item[0].as_str() {
        "header" => [&[1][..], &half(1)].concat(),
        "threshold" => [&[2][..], &half(1), &field(2).to_le_bytes()].concat(),
        "term" => [&[3][..], &half(1), &word(2)].concat(),
        "seal" => vec![4],
        "mark" => [&[5][..], &half(1), &field(2).to_le_bytes()[..1]].concat(),
        "settle" => vec![6],
        "sift" => vec![7],
        "area" => [&[8][..], &half(1), &word(2)].concat(),
        "hex" => (0..item[1].len() / 2)
            .map(|at| u8::from_str_radix(&item[1][2 * at..2 * at + 2], 16).expect("hex"))
            .collect(),
        other => panic!("no such record: {other}"),
    }
}

/// Numbers from a seed (xorshift).
pub struct Random(pub u64);

impl Random {
    pub fn next(&mut self) -> u64 {
        self.0 ^= self.0 << 13;
        self.0 ^= self.0 >> 7;
        self.0 ^= self.0 << 17;
        self.0
    }

    pub fn below(&mut self, limit: usize) -> usize {
        usize::try_from(self.next() % limit as u64).expect("it is below the limit")
    }

    pub fn bytes(&mut self, count: usize) -> Vec<u8> {
        (0..count).map(|_| self.next().to_le_bytes()[0]).collect()
    }
}
