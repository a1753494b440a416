//! Lengths: for each buffer one element more is taken and cleared, and the answer is the same; one element fewer is refused by 10, and
//! nothing is touched.

mod common;

use common::raw::{self, Work, LISTING};

const OLD: u8 = 0xA5;

#[test]
fn one_element_longer() {
    let vectors = common::vectors();
    for buffer in 0..Work::LENGTHS.len() {
        let mut lengths = Work::LENGTHS;
        lengths[buffer] += 1;
        for vector in vectors.iter().filter(|vector| vector.file.len() <= 65_536) {
            let mut work = Work::filled(lengths, OLD);
            let mut listed = Work::filled(Work::LENGTHS, OLD);
            let mut text = vec![0; LISTING];
            let (given, length) = raw::run(&vector.file, &mut work, &mut text);
            let (wanted, _) = raw::run(&vector.file, &mut listed, &mut []);
            assert_eq!(given, wanted, "{}", vector.name);
            assert_eq!(text[..length], *vector.listing.as_bytes(), "{}", vector.name);
            assert!(work.cut() == listed, "buffer {buffer} longer: {}", vector.name);
            assert!(work.zero_after(), "buffer {buffer} longer, not cleared: {}", vector.name);
        }
    }
}

#[test]
fn one_element_shorter() {
    let vectors = common::vectors();
    for buffer in 0..Work::LENGTHS.len() {
        let mut lengths = Work::LENGTHS;
        lengths[buffer] -= 1;
        let before = Work::filled(lengths, OLD);
        let mut work = before.clone();
        for vector in &vectors {
            let (given, _) = raw::run(&vector.file, &mut work, &mut []);
            let untouched = raw::Given {
                refused: 10,
                last: 0,
                sealed: 0,
                at: 0,
                nodes: 0,
                rows: 0,
                answered: 0,
            };
            assert_eq!(given, untouched, "{}", vector.name);
        }
        assert!(work == before, "buffer {buffer} shorter, and something was touched");
    }
}

#[test]
fn nothing_lent() {
    let mut none = Work::filled([0; 21], 0);
    let (given, _) = raw::run(&[], &mut none, &mut []);
    assert_eq!(given.refused, 10);
}

#[test]
fn a_listing_buffer_too_short() {
    let vectors = common::vectors();
    let mut work = Work::new();
    let mut text = vec![OLD; LISTING - 1];
    let (given, length) = raw::run(&vectors[0].file, &mut work, &mut text);
    assert_eq!((given.refused, length), (0, 0));
    assert!(text.iter().all(|&byte| byte == OLD));
}
