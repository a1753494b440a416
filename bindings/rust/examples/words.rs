//! Prints what the call gives back and what it left in every buffer, then the listing, in the form of `oracle --words`: for comparisons.
//! usage: words [--many] < FILE      (--many: files after their lengths, u32, little-endian; a line `--` after each)
//! Each file is run over memory that held other numbers before, an input that is too long over cleared memory.

use std::io::{Read, Write};

#[path = "../tests/common/raw.rs"]
mod raw;

use raw::{Given, Work, LISTING};

fn main() {
    let many = std::env::args().any(|word| word == "--many");
    let mut input = Vec::new();
    std::io::stdin().read_to_end(&mut input).expect("standard input can be read");
    let mut out = std::io::BufWriter::new(std::io::stdout().lock());
    let files = if many { frames(&input) } else { vec![&input[..]] };
    for file in files {
        out.write_all(&printed(file)).expect("output");
        if many {
            out.write_all(b"--\n").expect("output");
        }
    }
}

fn printed(file: &[u8]) -> Vec<u8> {
    let old = if file.len() > 65_536 { 0 } else { 7 };
    let mut work = Work::filled(Work::LENGTHS, old);
    let mut text = vec![0; LISTING];
    let (given, length) = raw::run(file, &mut work, &mut text);
    let mut out = Vec::new();
    line(&mut out, "call", &[call(&given)]);
    for words in work.words() {
        line(&mut out, words.name, &words.elements);
    }
    out.extend(&text[..length]);
    out
}

fn call(given: &Given) -> Vec<i128> {
    let Given { refused, last, sealed, at, nodes, rows, answered } = *given;
    let wide = |number: usize| number as i128;
    vec![
        refused.into(),
        wide(at),
        sealed.into(),
        wide(nodes),
        wide(rows),
        wide(answered),
        last.into(),
    ]
}

/// A name and the elements up to the last that is not zero.
fn line(out: &mut Vec<u8>, name: &str, elements: &[Vec<i128>]) {
    let zero = |element: &&Vec<i128>| element.iter().all(|&number| number == 0);
    let used = elements.len() - elements.iter().rev().take_while(zero).count();
    out.extend(name.bytes());
    for element in &elements[..used] {
        let joined: Vec<String> = element.iter().map(i128::to_string).collect();
        out.push(b' ');
        out.extend(joined.join(",").bytes());
    }
    out.push(b'\n');
}

fn frames(mut rest: &[u8]) -> Vec<&[u8]> {
    let mut files = Vec::new();
    while let Some((length, behind)) = rest.split_first_chunk::<4>() {
        let (file, behind) = behind.split_at(u32::from_le_bytes(*length) as usize);
        files.push(file);
        rest = behind;
    }
    files
}
