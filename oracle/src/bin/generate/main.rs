//! Generator of job files, seeded: writes each file behind its length (u32,
//! little-endian), as `oracle --many` reads them.

mod fixed;
mod random;
mod records;

use std::io::Write;
use std::process::ExitCode;

use random::Random;

const HELP: &str = "\
usage: generate SEED COUNT [--small | --medium | --large | --sums | --damaged | --limits] [--whole]
       generate --fixed      the fixed list: every refusal, order, answer and limit
       generate --names      the names of the fixed list, a line each
Without a kind the files are of all kinds in turn. `--small` stays below 150
bytes, 8 nodes, 4 thresholds of 5 terms. One list in three has most of its terms
as areas in slivers, `--whole` leaves this out.
";

const KINDS: [&str; 6] = ["--small", "--medium", "--large", "--sums", "--damaged", "--limits"];

fn main() -> ExitCode {
    let args: Vec<String> = std::env::args().skip(1).collect();
    let mut args: Vec<&str> = args.iter().map(String::as_str).collect();
    let slivers = args.pop_if(|last| *last == "--whole").is_none();
    match args[..] {
        ["--fixed"] => frames(fixed::list().into_iter().map(|(_, file)| file)),
        ["--names"] => fixed::list().iter().for_each(|(name, _)| println!("{name}")),
        [seed, count] | [seed, count, _] => {
            let (Ok(seed), Ok(count)) = (seed.parse::<u64>(), count.parse::<u64>()) else {
                return help();
            };
            let kind = args.get(2).copied();
            if kind.is_some_and(|kind| !KINDS.contains(&kind)) {
                return help();
            }
            // Each file has a seed of its own, so that one can be made again alone.
            frames((0..count).map(|place| {
                let seed = seed.wrapping_mul(1_000_003).wrapping_add(place);
                let mut random = Random::new(seed, slivers);
                file(&mut random, kind.unwrap_or(KINDS[place as usize % KINDS.len()]))
            }));
        }
        _ => return help(),
    }
    ExitCode::SUCCESS
}

fn help() -> ExitCode {
    print!("{HELP}");
    2.into()
}

fn file(random: &mut Random, kind: &str) -> Vec<u8> {
    match kind {
        "--small" => random::small(random),
        "--medium" => random::medium(random),
        "--large" => random::plain(random, random::LARGE),
        "--sums" => {
            let most = random.pick(&[4, 8, 24, 60]);
            random::sums(random, most)
        }
        "--damaged" => random::damaged(random),
        _ => random::limits(random),
    }
}

fn frames(files: impl Iterator<Item = Vec<u8>>) {
    let mut out = std::io::BufWriter::new(std::io::stdout().lock());
    for file in files {
        let length = u32::try_from(file.len()).expect("a small file").to_le_bytes();
        out.write_all(&length).and_then(|()| out.write_all(&file)).expect("output");
    }
}
