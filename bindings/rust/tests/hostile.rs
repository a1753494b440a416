//! Inputs that no one would write: noise, damaged and cut files, the longest and one byte more. Each is answered, the same over used memory
//! as over fresh, and what is given back stays inside the limits.

mod common;

use common::raw::{self, Given, Work, LISTING};
use common::Random;

struct Twice {
    fresh: Work,
    used: Work,
    text: [Vec<u8>; 2],
}

impl Twice {
    fn new() -> Self {
        let text = || vec![0; LISTING];
        Self { fresh: Work::new(), used: Work::filled(Work::LENGTHS, 0xFF), text: [text(), text()] }
    }

    fn run(&mut self, input: &[u8]) -> Given {
        let short = input.len() <= 65_536;
        if short {
            self.fresh = Work::new();
        }
        let before = (!short).then(|| self.used.clone());
        let (given, length) = raw::run(input, &mut self.fresh, &mut self.text[0]);
        let (again, same) = raw::run(input, &mut self.used, &mut self.text[1]);
        assert_eq!((given, length), (again, same));
        assert_eq!(self.text[0][..length], self.text[1][..same]);
        match before {
            None => assert!(self.fresh == self.used),
            Some(before) => assert!(self.used == before),
        }
        inside(&given, input.len());
        given
    }
}

fn inside(given: &Given, length: usize) {
    assert!(given.refused <= 10 && given.last <= 2 && given.sealed <= 1);
    assert!(given.at <= length && (given.refused > 0 || given.at == length));
    assert!(given.nodes <= 4_096 && given.rows <= 1_024 && given.answered <= 64);
    assert_eq!(given.refused == 10, length > 65_536);
}

#[test]
fn noise() {
    let mut random = Random(1);
    let mut twice = Twice::new();
    for _ in 0..2_000 {
        let length = random.below(200);
        twice.run(&random.bytes(length));
    }
    for byte in 0..=255 {
        twice.run(&[byte]);
        twice.run(&vec![byte; 65_536]);
    }
}

#[test]
fn damaged_vectors() {
    let mut random = Random(2);
    let mut twice = Twice::new();
    for vector in common::vectors() {
        for _ in 0..20 {
            let mut file = vector.file.clone();
            for _ in 0..=random.below(3) {
                if !file.is_empty() {
                    let at = random.below(file.len());
                    file[at] = random.next().to_le_bytes()[0];
                }
            }
            file.truncate(65_536);
            twice.run(&file);
        }
    }
}

#[test]
fn cut_vectors() {
    let mut twice = Twice::new();
    for vector in common::vectors().iter().filter(|vector| vector.file.len() < 200) {
        for end in 0..vector.file.len() {
            twice.run(&vector.file[..end]);
        }
    }
}

#[test]
fn the_longest_and_one_more() {
    let mut twice = Twice::new();
    // A header, a seal, and marks of one node up to the last byte; then one byte more.
    let mut file = vec![1, 1, 0, 4];
    while file.len() + 4 <= 65_536 {
        file.extend([5, 0, 0, 1]);
    }
    assert_eq!(file.len(), 65_536);
    assert_eq!(twice.run(&file).refused, 0);
    file.push(6);
    assert_eq!(twice.run(&file).refused, 10);
    assert_eq!(twice.run(&vec![7; 1 << 20]).refused, 10);
    assert_eq!(
        twice.run(&[]),
        Given { refused: 0, last: 0, sealed: 0, at: 0, nodes: 0, rows: 0, answered: 0 }
    );
}

#[test]
fn lengths_at_random() {
    let mut random = Random(3);
    let vectors = common::vectors();
    for _ in 0..300 {
        let mut lengths = Work::LENGTHS;
        for _ in 0..random.below(3) {
            let at = random.below(lengths.len());
            lengths[at] = random.below(2 * lengths[at]);
        }
        let enough = lengths.iter().zip(Work::LENGTHS).all(|(&length, listed)| length >= listed);
        let mut work = Work::filled(lengths, 0x5A);
        let vector = &vectors[random.below(vectors.len())];
        let mut text = vec![0; LISTING];
        let (given, length) = raw::run(&vector.file, &mut work, &mut text);
        if enough {
            assert_eq!(text[..length], *vector.listing.as_bytes());
        } else {
            assert_eq!(given.refused, 10);
            assert!(work == Work::filled(lengths, 0x5A));
        }
    }
}
