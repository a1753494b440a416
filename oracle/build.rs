//! Takes the original Rust at build time, verbatim, into OUT_DIR/core.
//! Files that compile under the stand-ins are copied whole; of the others the
//! named items are cut out by their first line and matching braces.

use std::path::{Path, PathBuf};
use std::{env, fs};

const DEFAULT: &str = "../../shared/docs/src";
const FERRARIS: &str = "crates/zetesis-ferraris/src";
const ALGEBRA: &str = "crates/zetesis-algebra/src";

/// Files of the original taken whole.
const WHOLE: [&str; 5] = [
    "regions/thresholds.rs",
    "regions/thresholds/propagate.rs",
    "regions/thresholds/residual.rs",
    "regions/thresholds/possible_sums.rs",
    "regions/thresholds/prefixes.rs",
];

/// Modules that thresholds.rs declares and that remain outside.
const STANDINS: [&str; 3] = ["capacity.rs", "connectives.rs", "view.rs"];

const WORDS: [&str; 3] =
    ["const WORD_BITS: usize", "pub fn union_shifted_until_hit<E>(", "fn union_shifted_until<E>("];
const REGION: [&str; 1] = ["const fn words(atoms: usize)"];
const NUMERIC: [&str; 1] = ["pub struct Threshold<'a> {"];
const REGIONS: [&str; 9] = [
    "struct CommonScratch {",
    "impl CommonScratch {",
    "struct Closure<'a, W, C: ReadingClass = AnswerSetsSought> {",
    "struct KnownMut<'a, C> {",
    "enum Step {",
    "impl Step {",
    "const fn flag_words(n: usize)",
    "fn bit(mask: &[u64], index: usize)",
    "fn learn(",
];
const CLOSURE: &str = "impl<W: Count, C: ReadingClass> Closure<'_, W, C> {";
const CLOSURE_ITEMS: [&str; 2] = ["    fn sure(&mut self", "    fn never(&mut self"];

fn main() {
    println!("cargo:rerun-if-env-changed=ZETESIS_SRC");
    println!("cargo:rerun-if-changed=build.rs");
    let home = PathBuf::from(env::var("CARGO_MANIFEST_DIR").expect("set by cargo"));
    let folder = env::var("ZETESIS_SRC").map_or_else(|_| home.join(DEFAULT), PathBuf::from);
    let core = PathBuf::from(env::var("OUT_DIR").expect("set by cargo")).join("core");
    fs::create_dir_all(&core).expect("OUT_DIR can be written");

    let ferraris = folder.join(FERRARIS);
    for name in WHOLE {
        let text = read(&ferraris.join(name));
        write(&core, name.rsplit('/').next().expect("a name"), &text);
    }
    for name in STANDINS {
        write(&core, name, &read(&home.join("standins").join(name)));
    }
    let cut_all = |path: PathBuf, items: &[&str]| {
        let text = read(&path);
        let parts: Vec<&str> = items.iter().map(|item| cut(&text, item, &path)).collect();
        parts.join("\n\n") + "\n"
    };
    write(&core, "words.rs", &cut_all(folder.join(ALGEBRA).join("words.rs"), &WORDS));
    write(&core, "region.rs", &cut_all(folder.join(ALGEBRA).join("region.rs"), &REGION));
    write(&core, "numeric.rs", &cut_all(ferraris.join("theory/numeric.rs"), &NUMERIC));
    let regions = ferraris.join("regions.rs");
    assert!(read(&regions).lines().any(|line| line == CLOSURE), "{CLOSURE} is not in {regions:?}");
    let items = cut_all(regions.clone(), &REGIONS);
    let methods = cut_all(regions, &CLOSURE_ITEMS);
    write(&core, "regions.rs", &format!("{items}\n{CLOSURE}\n{methods}}}\n"));
    // A file named by `path` looks for its own modules beside itself.
    let thresholds = core.join("thresholds.rs");
    write(&core, "modules.rs", &format!("#[path = {thresholds:?}]\nmod thresholds;\n"));
}

fn read(path: &Path) -> String {
    println!("cargo:rerun-if-changed={}", path.display());
    fs::read_to_string(path).unwrap_or_else(|error| {
        panic!(
            "cannot read {}: {error}; set ZETESIS_SRC to the folder that holds crates/",
            path.display()
        )
    })
}

fn write(core: &Path, name: &str, text: &str) {
    fs::write(core.join(name), text).unwrap_or_else(|error| panic!("cannot write {name}: {error}"));
}

/// The item whose first line begins with `first`, with the comment and
/// attribute lines directly above it, up to its closing brace or semicolon.
fn cut<'a>(text: &'a str, first: &str, path: &Path) -> &'a str {
    let mut start = None;
    let mut offset = 0;
    let mut above = 0;
    for line in text.split_inclusive('\n') {
        if line.starts_with(first) {
            assert!(start.is_none(), "item `{first}` stands twice in {}", path.display());
            start = Some((above, offset));
        }
        offset += line.len();
        let trimmed = line.trim_start();
        if !(trimmed.starts_with("//") || trimmed.starts_with("#[")) {
            above = offset;
        }
    }
    let (above, begin) =
        start.unwrap_or_else(|| panic!("item `{first}` not found in {}", path.display()));
    let length = item_length(&text[begin..])
        .unwrap_or_else(|| panic!("item `{first}` has no end in {}", path.display()));
    &text[above..begin + length]
}

/// Bytes up to the brace that closes the first one, or to a semicolon that
/// stands outside all brackets. Comments, strings and characters are skipped.
fn item_length(text: &str) -> Option<usize> {
    let bytes = text.as_bytes();
    let (mut at, mut braces, mut brackets) = (0, 0_usize, 0_usize);
    while at < bytes.len() {
        match bytes[at] {
            b'/' if bytes.get(at + 1) == Some(&b'/') => {
                at += text[at..].find('\n')?;
            }
            b'"' => {
                at += 1;
                while bytes.get(at)? != &b'"' {
                    at += if bytes[at] == b'\\' { 2 } else { 1 };
                }
            }
            b'\'' if bytes.get(at + 1) == Some(&b'\\') => at += 2 + text[at + 2..].find('\'')?,
            b'\'' if bytes.get(at + 2) == Some(&b'\'') => at += 2,
            b'(' | b'[' => brackets += 1,
            b')' | b']' => brackets = brackets.checked_sub(1)?,
            b'{' => braces += 1,
            b'}' => {
                braces = braces.checked_sub(1)?;
                if braces == 0 && brackets == 0 {
                    return Some(at + 1);
                }
            }
            b';' if braces == 0 && brackets == 0 => return Some(at + 1),
            _ => {}
        }
        at += 1;
    }
    None
}
