//! The oracle: one job file on standard input, document 01's listing on standard
//! output. Flags for many files, traces and coverage: see `--help`.

use std::io::{Read, Write};
use std::process::ExitCode;

use threshold_oracle::{buffers, cover::Cover, job, listing};

const HELP: &str = "\
usage: oracle [--many] [--trace | --rows | --words] [--cover] < FILE
Reads one job file and prints its listing.
  --many   many files, each behind its length (u32, little-endian);
           after each listing a line `--`
  --rows   print first the rows, guards, links and conditions' rows
  --trace  print first every record with its answer and steps, the rows,
           cursors, masks, queues and gcds
  --words  print first what each lent buffer holds (docs/BUFFERS.md), up to
           its last element that is not zero
  --cover  print behind all files what they have reached; status 1 if a
           counter is 0 that can be met
  --help   this text
";

fn main() -> ExitCode {
    let flags: Vec<String> = std::env::args().skip(1).collect();
    let known = ["--many", "--trace", "--rows", "--words", "--cover"];
    if flags.iter().any(|flag| !known.contains(&flag.as_str())) {
        print!("{HELP}");
        return if flags.iter().any(|flag| flag == "--help") { 0.into() } else { 2.into() };
    }
    let has = |name: &str| flags.iter().any(|flag| flag == name);
    let mut input = Vec::new();
    std::io::stdin().read_to_end(&mut input).expect("standard input can be read");
    let files = if has("--many") { frames(&input) } else { vec![&input[..]] };
    let mut out = std::io::BufWriter::new(std::io::stdout().lock());
    let mut cover = Cover::default();
    for file in files {
        let run = job::run(file);
        if has("--cover") {
            cover.file(file, &run);
        }
        if has("--trace") {
            out.write_all(listing::trace(&run).as_bytes()).expect("output");
        } else if has("--rows") {
            out.write_all(listing::rows(&run).as_bytes()).expect("output");
        } else if has("--words") {
            out.write_all(buffers::words(&run).as_bytes()).expect("output");
        }
        out.write_all(listing::listing(&run).as_bytes()).expect("output");
        if has("--many") {
            out.write_all(b"--\n").expect("output");
        }
    }
    if has("--cover") {
        let (table, wrong) = cover.table();
        out.write_all(table.as_bytes()).expect("output");
        return if wrong == 0 { 0.into() } else { 1.into() };
    }
    ExitCode::SUCCESS
}

/// Files framed as length and bytes.
fn frames(mut rest: &[u8]) -> Vec<&[u8]> {
    let mut files = Vec::new();
    while let Some((length, behind)) = rest.split_first_chunk::<4>() {
        let length = u32::from_le_bytes(*length) as usize;
        let (file, behind) =
            behind.split_at_checked(length).expect("a frame's bytes are all there");
        files.push(file);
        rest = behind;
    }
    assert!(rest.is_empty(), "a frame begins with four bytes");
    files
}
