//! Seeded random job files: rich small ones, large ones, sum searches, damage.

use crate::records::File;

/// Xorshift with a multiplier at the end.
pub struct Random {
    state: u64,
    /// Whether lists may be written in slivers.
    slivers: bool,
}

impl Random {
    pub fn new(seed: u64, slivers: bool) -> Self {
        let state = seed.wrapping_mul(0x9e37_79b9_7f4a_7c15) ^ 0x5851_f42d_4c95_7f2d;
        let mut random = Self { state: state | 1, slivers };
        for _ in 0..8 {
            random.next();
        }
        random
    }

    pub fn next(&mut self) -> u64 {
        self.state ^= self.state >> 12;
        self.state ^= self.state << 25;
        self.state ^= self.state >> 27;
        self.state.wrapping_mul(0x2545_f491_4f6c_dd1d) >> 11
    }

    /// From 0 to below `end`.
    pub fn below(&mut self, end: usize) -> usize {
        (self.next() % end.max(1) as u64) as usize
    }

    /// From `low` to `high`, both included.
    pub fn range(&mut self, low: i64, high: i64) -> i64 {
        low + (self.next() % ((high - low).max(0) as u64 + 1)) as i64
    }

    pub fn chance(&mut self, one_in: usize) -> bool {
        self.below(one_in) == 0
    }

    pub fn pick<T: Copy>(&mut self, list: &[T]) -> T {
        list[self.below(list.len())]
    }

    /// A source of its own for one threshold; this one does not move.
    fn apart(&self, node: usize) -> Self {
        Self::new(self.state.wrapping_add(node as u64), self.slivers)
    }
}

/// The size of a job.
#[derive(Clone, Copy)]
pub struct Shape {
    pub nodes: usize,
    pub thresholds: usize,
    /// Terms of one threshold and of the file.
    pub terms: usize,
    pub all_terms: usize,
    pub records: usize,
}

pub const SMALL: Shape = Shape { nodes: 8, thresholds: 4, terms: 5, all_terms: 10, records: 7 };
pub const MEDIUM: Shape =
    Shape { nodes: 40, thresholds: 14, terms: 12, all_terms: 90, records: 30 };
pub const LARGE: Shape =
    Shape { nodes: 4_096, thresholds: 1_024, terms: 60, all_terms: 4_096, records: 300 };

type List = Vec<(usize, u32)>;

/// How the weights of one file are chosen.
#[derive(Clone, Copy)]
enum Weights {
    Unit,
    Few,
    Multiples(u32),
    AlmostMultiples(u32),
    Near(u32),
    Wide,
}

fn weights(random: &mut Random) -> Weights {
    let factor = random.range(2, 9) as u32;
    match random.below(9) {
        0 => Weights::Unit,
        1 | 2 => Weights::Few,
        3 => Weights::Multiples(factor),
        4 | 5 => Weights::AlmostMultiples(factor),
        6 | 7 => Weights::Near(random.range(4, 90) as u32),
        _ => Weights::Wide,
    }
}

fn weight(random: &mut Random, family: Weights) -> u32 {
    if random.chance(12) {
        return 0;
    }
    match family {
        Weights::Unit => 1,
        Weights::Few => random.range(1, 6) as u32,
        Weights::Multiples(factor) => factor * random.range(1, 6) as u32,
        Weights::AlmostMultiples(factor) => {
            factor * random.range(1, 6) as u32 + u32::from(random.chance(4))
        }
        Weights::Near(middle) => middle + random.below(3) as u32,
        Weights::Wide => match random.below(5) {
            0 => u32::MAX - random.below(3) as u32,
            1 => random.next() as u32,
            _ => random.below(1 << 12) as u32,
        },
    }
}

/// A new list, or one made from an earlier list.
fn list(random: &mut Random, nodes: usize, most: usize, family: Weights, earlier: &[List]) -> List {
    let new = |random: &mut Random, count: usize| -> List {
        (0..count).map(|_| (random.below(nodes), weight(random, family))).collect()
    };
    if earlier.is_empty() || random.chance(4) {
        let count = random.below(most + 1);
        return new(random, count);
    }
    let mut base = earlier[random.below(earlier.len())].clone();
    match random.below(8) {
        0..=2 => {}
        3 => {
            let turn = random.below(base.len());
            base.rotate_left(turn);
        }
        4 => base.push((random.below(nodes), 0)),
        5 => {
            let lightest = base.iter().map(|term| term.1).min().unwrap_or(4);
            let added = random.range(i64::from(lightest.min(1)), i64::from(lightest)) as u32;
            base.push((random.below(nodes), added));
        }
        6 => {
            base.sort_by_key(|term| (std::cmp::Reverse(term.1), term.0));
            base.truncate(random.below(base.len() + 1));
        }
        _ => {
            if let Some((condition, weight)) = base.pop() {
                let part = random.below(weight as usize + 1) as u32;
                base.extend([(condition, part), (condition, weight - part)]);
            }
        }
    }
    base.truncate(most);
    base
}

fn total(list: &List) -> i64 {
    list.iter().map(|term| i64::from(term.1)).sum()
}

fn bound(random: &mut Random, list: &List, near: Option<i64>) -> i64 {
    let all = total(list);
    match random.below(12) {
        0 => random.range(-3, 1),
        1 => all + random.range(-2, 2),
        2..=6 if near.is_some() => near.unwrap_or(0) + random.range(-3, 4),
        _ => random.range(0, all + 1),
    }
}

struct Threshold {
    node: usize,
    bound: i64,
    list: List,
}

/// Header and thresholds; returns what was written.
fn job(random: &mut Random, file: &mut File, shape: Shape) -> (usize, Vec<Threshold>) {
    let nodes = 1 + random.below(shape.nodes);
    file.header(nodes);
    let family = weights(random);
    let mut lists: Vec<List> = Vec::new();
    let mut thresholds: Vec<Threshold> = Vec::new();
    let (mut node, mut terms) = (random.below(nodes / 2 + 1), 0);
    let wanted = random.below(shape.thresholds + 1);
    let most = 1 + random.below(shape.terms);
    while thresholds.len() < wanted && node < nodes {
        let list = list(random, nodes, most, family, &lists);
        if terms + list.len() > shape.all_terms {
            break;
        }
        let near = lists.last().filter(|last| **last == list).and(thresholds.last());
        let bound = bound(random, &list, near.map(|threshold| threshold.bound));
        let spare = shape.all_terms - terms - list.len();
        terms += list.len() + write_threshold(random, file, node, bound, &list, spare);
        lists.push(list.clone());
        thresholds.push(Threshold { node, bound, list });
        node += if random.chance(4) { 1 + random.below(3) } else { 1 };
    }
    (nodes, thresholds)
}

/// A threshold with terms and areas; how many slivers it has beyond one for each term of the list, at most `spare`.
fn write_threshold(
    random: &mut Random,
    file: &mut File,
    node: usize,
    bound: i64,
    list: &List,
    spare: usize,
) -> usize {
    file.threshold(node, bound);
    if let Some((slivers, more)) = in_slivers(random.apart(node), list, spare) {
        file.0.extend(slivers);
        return more;
    }
    let areas = random.chance(6);
    for &(condition, weight) in list {
        if areas && weight < 42_949_000 && random.chance(2) {
            let area = i64::from(weight) * 100 + random.range(-50, 49);
            file.area(condition, area.max(0) as u32);
        } else {
            file.term(condition, weight);
        }
    }
    0
}

/// A threshold with the terms of a list, or sometimes with slivers in their place.
fn write_terms(random: &Random, file: &mut File, node: usize, bound: i64, list: &List) {
    file.threshold(node, bound);
    match in_slivers(random.apart(node), list, list.len()) {
        Some((slivers, _)) => file.0.extend(slivers),
        None => list.iter().for_each(|&(condition, weight)| file.term(condition, weight)),
    }
}

/// One time in three a list as records, most of its terms as areas in slivers; and how many records more than terms. The
/// first sliver stands in the term's place and the others anywhere behind it, so that a list without repeated conditions
/// joins to what it was; but now and then a part of the weight is left a term.
fn in_slivers(mut random: Random, list: &List, spare: usize) -> Option<(Vec<u8>, usize)> {
    if !random.slivers || !random.chance(3) {
        return None;
    }
    let mut spare = spare.min(1_024 - list.len());
    let before = spare;
    let mut places = vec![File::default(); list.len()];
    for (place, &(condition, weight)) in list.iter().enumerate() {
        let behind = |random: &mut Random| place + random.below(list.len() - place);
        let term =
            if spare > 0 && random.chance(8) { random.below(weight as usize + 1) } else { 0 };
        let edge = random.range(-50, 49);
        let rest = (i64::from(weight) - term as i64) * 100;
        let sum = (rest + random.pick(&[-50, -1, 0, 49, edge, edge])).max(0);
        let fewest = (sum / i64::from(u32::MAX)) as usize + usize::from(term > 0);
        // What takes many slivers is seldom cut.
        let whole = if fewest > 8 { !random.chance(20) } else { random.chance(5) };
        if fewest > spare || whole {
            places[place].term(condition, weight);
            continue;
        }
        let more = fewest + random.below((spare - fewest).min(3) + 1);
        spare -= more;
        if term > 0 {
            places[behind(&mut random)].term(condition, term as u32);
        }
        let slivers = cut(&mut random, sum, more + 1 - usize::from(term > 0));
        for (turn, sliver) in slivers.into_iter().enumerate() {
            let at = if turn == 0 { place } else { behind(&mut random) };
            places[at].area(condition, sliver);
        }
    }
    Some((places.into_iter().flat_map(|records| records.0).collect(), before - spare))
}

/// A sum in parts, as even as they must be to fit their fields.
fn cut(random: &mut Random, sum: i64, parts: usize) -> Vec<u32> {
    let even = sum > i64::from(u32::MAX);
    let mut ends: Vec<i64> = (1..parts as i64)
        .map(|part| if even { sum * part / parts as i64 } else { random.range(0, sum) })
        .collect();
    ends.push(sum);
    ends.sort_unstable();
    let mut from = 0;
    ends.iter().map(|&end| (end - std::mem::replace(&mut from, end)) as u32).collect()
}

/// Two thresholds over one list, one marked sure and one never, give a window.
fn window(random: &mut Random, thresholds: &[Threshold]) -> Option<(usize, usize)> {
    let low = random.below(thresholds.len());
    let high = (0..thresholds.len()).find(|&other| {
        thresholds[other].bound > thresholds[low].bound
            && thresholds[other].list == thresholds[low].list
    })?;
    Some((thresholds[low].node, thresholds[high].node))
}

/// Seal, marks, settles and sifts.
fn work(random: &mut Random, file: &mut File, shape: Shape, nodes: usize, list: &[Threshold]) {
    if random.chance(60) {
        return;
    }
    file.seal();
    let mut answers = 0;
    let mut marked = vec![false; nodes];
    // Nodes are seldom marked twice.
    let mut mark = |random: &mut Random, file: &mut File, node: usize, value: u8| {
        if !marked[node] || random.chance(12) {
            file.mark(node, value);
            marked[node] = true;
        }
    };
    for _ in 0..random.below(shape.records + 1) {
        let value = u8::from(random.chance(2));
        match random.below(9) {
            0..=2 if !list.is_empty() => {
                if let Some((low, high)) = window(random, list) {
                    mark(random, file, low, 1);
                    mark(random, file, high, 0);
                }
            }
            0..=4 => {
                let node = random.below(nodes);
                mark(random, file, node, value);
            }
            5 if !list.is_empty() => {
                let node = list[random.below(list.len())].node;
                mark(random, file, node, value);
            }
            6 if answers < 63 => {
                file.settle();
                answers += 1;
            }
            7 if answers < 63 => {
                file.sift();
                answers += 1;
            }
            _ => {}
        }
    }
    match random.below(8) {
        0 => {}
        1..=3 => file.settle(),
        _ => file.sift(),
    }
}

pub fn plain(random: &mut Random, shape: Shape) -> Vec<u8> {
    let mut file = File::default();
    let (nodes, thresholds) = job(random, &mut file, shape);
    work(random, &mut file, shape, nodes, &thresholds);
    file.0
}

pub fn medium(random: &mut Random) -> Vec<u8> {
    if random.chance(3) { windows(random) } else { plain(random, MEDIUM) }
}

/// Several rows over common nodes, each with a narrow window, and sifts.
fn windows(random: &mut Random) -> Vec<u8> {
    let mut file = File::default();
    let nodes = 4 + random.below(14);
    let rows = 2 + random.below(3);
    file.header(nodes + 2 * rows);
    for row in 0..rows {
        let middle = random.range(2, 40);
        let count = 2 + random.below(nodes.min(7) - 1);
        let first = random.below(nodes);
        let weights = (0..count).map(|_| (middle + random.range(0, 2)) as u32);
        let list: List = weights.enumerate().map(|(at, one)| ((first + at) % nodes, one)).collect();
        let low = (random.range(1, count as i64) * middle + random.range(-2, 3)).max(1);
        for (side, bound) in [low, low + random.range(1, 1 + middle / 2)].into_iter().enumerate() {
            write_threshold(random, &mut file, nodes + 2 * row + side, bound, &list, list.len());
        }
    }
    file.seal();
    let first = random.below(rows);
    for row in (0..rows).map(|row| (row + first) % rows) {
        file.mark(nodes + 2 * row, 1);
        file.mark(nodes + 2 * row + 1, 0);
        if random.chance(4) {
            file.sift();
        }
    }
    for _ in 0..random.below(3) {
        file.mark(random.below(nodes), u8::from(random.chance(2)));
        file.sift();
    }
    file.sift();
    file.0
}

/// Small files stay below 150 bytes.
pub fn small(random: &mut Random) -> Vec<u8> {
    loop {
        let file = match random.below(8) {
            0..=2 => sums(random, 5),
            3 => two_rows(random),
            _ => plain(random, SMALL),
        };
        if file.len() < 150 {
            return file;
        }
    }
}

/// One row with a narrow window, sums that lie in heaps, and a sift.
pub fn sums(random: &mut Random, most: usize) -> Vec<u8> {
    let mut file = File::default();
    let count = 2 + random.below(most - 1);
    let nodes = count + 2 + random.below(3);
    file.header(nodes);
    let middle = match random.below(3) {
        0 => random.range(3, 12),
        1 => random.range(10, 60),
        _ => random.range(20, 400),
    };
    let spread = random.range(0, 3);
    // Few common factors: several terms can be forced at once.
    let factors = random.chance(4);
    let factor = random.pick(&[1, 1, 1, 2, 3]);
    let mut list: List = Vec::new();
    for condition in 0..count {
        let one = if factors {
            random.pick(&[4, 6, 6, 9, 10, 12, 14, 15, 18, 20, 21, 30])
        } else if random.chance(9) {
            random.range(1, 4 * middle)
        } else {
            middle + random.range(0, spread)
        };
        list.push((condition, (one * factor) as u32));
    }
    let all = total(&list);
    let steps = random.range(0, count as i64);
    let low = if factors || random.chance(3) {
        random.range(1, all)
    } else {
        (steps * middle * factor + random.range(-2, 4 * spread + 3)).max(1)
    };
    let high = low + if factors { random.range(1, 2) } else { random.range(1, 3 + middle / 3) };
    for (node, bound) in [(count, low), (count + 1, high)] {
        write_terms(random, &mut file, node, bound, &list);
    }
    file.seal();
    for _ in 0..random.below(4) {
        let value = u8::from(random.chance(3));
        file.mark(random.below(count), value);
    }
    file.mark(count, 1);
    file.mark(count + 1, 0);
    if random.chance(3) {
        file.settle();
    }
    file.sift();
    if random.chance(4) {
        file.mark(random.below(count), u8::from(random.chance(2)));
        file.sift();
    }
    file.0
}

/// Two rows over the same nodes, one a prefix of the other or nearly so; a bound
/// of one and a bound of the other meet at the link.
fn two_rows(random: &mut Random) -> Vec<u8> {
    let mut file = File::default();
    let family = weights(random);
    let mut terms: List = (0..4).map(|node| (node, weight(random, family))).collect();
    terms.sort_by_key(|term| (std::cmp::Reverse(term.1), term.0));
    let long = terms.clone();
    terms.truncate(2 + random.below(3));
    if random.chance(4) {
        terms.push((random.below(8), 0));
    }
    file.header(8);
    let all = total(&terms);
    let low = random.range(1, all.max(1));
    let high = random.range(1, (low + 3).min(all + 1));
    let turned = random.chance(2);
    for (place, list) in [terms, long].iter().enumerate() {
        let bound = if (place == 0) != turned { low } else { high };
        write_terms(random, &mut file, 4 + place, bound, list);
    }
    file.seal();
    if random.chance(3) {
        file.mark(random.below(4), u8::from(random.chance(2)));
    }
    let first = usize::from(turned);
    file.mark(4 + first, u8::from(!random.chance(4)));
    file.mark(5 - first, u8::from(random.chance(4)));
    if random.chance(2) {
        file.settle();
    } else {
        file.sift();
    }
    file.0
}

/// Start of each record of a file that is whole.
fn starts(file: &[u8]) -> Vec<usize> {
    let mut list = Vec::new();
    let mut at = 0;
    while at < file.len() {
        list.push(at);
        at += 1 + threshold_oracle::job::body_length(file[at]).unwrap_or(0);
    }
    list
}

fn one_record(random: &mut Random) -> Vec<u8> {
    let mut file = File::default();
    let node = random.pick(&[0, 1, 3, 7, 8, 40, 4_095, 4_096, 65_535]);
    let edge = threshold_oracle::job::BOUND;
    match random.below(10) {
        0 => file.header(node),
        1 => file.threshold(
            node,
            random.pick(&[0, 5, edge, edge + 1, -edge, -edge - 1, i64::MAX, i64::MIN]),
        ),
        2 => file.term(node, random.pick(&[0, 1, 7, u32::MAX])),
        3 => file.seal(),
        4 => file.mark(node, random.pick(&[0, 1, 2, 255])),
        5 => file.settle(),
        6 => file.sift(),
        7 => file.area(node, random.pick(&[0, 49, 50, 51, 99, 100, 149, 150, u32::MAX])),
        _ => file.0.push(random.pick(&[0, 9, 10, 0x80, 255])),
    }
    file.0
}

/// A file with one or two damages, or bytes at random.
pub fn damaged(random: &mut Random) -> Vec<u8> {
    if random.chance(25) {
        let count = random.below(40);
        return (0..count).map(|_| random.pick(&[0, 1, 2, 3, 4, 5, 6, 7, 8, 9, 255])).collect();
    }
    let mut file = match random.below(4) {
        0 => plain(random, MEDIUM),
        1 => sums(random, 6),
        _ => small(random),
    };
    for _ in 0..1 + random.below(2) {
        damage(random, &mut file);
    }
    file
}

fn damage(random: &mut Random, file: &mut Vec<u8>) {
    let starts = starts(file);
    if starts.is_empty() {
        return;
    }
    let record = random.below(starts.len());
    let begin = starts[record];
    let end = starts.get(record + 1).copied().unwrap_or(file.len()).min(file.len());
    match random.below(9) {
        0 => file.truncate(random.below(file.len() + 1)),
        1 => {
            let at = random.below(file.len());
            file[at] ^= 1 << random.below(8);
        }
        2 => drop(file.drain(begin..end)),
        3 => {
            let copy = file[begin..end].to_vec();
            file.splice(begin..begin, copy);
        }
        4 => {
            let new = one_record(random);
            file.splice(begin..begin, new);
        }
        5 => file[begin] = random.below(12) as u8,
        6 if end - begin >= 3 => {
            let node = random.pick(&[8_u16, 40, 4_095, 4_096, 65_535]).to_le_bytes();
            file[begin + 1..begin + 3].copy_from_slice(&node);
        }
        7 => {
            let at = begin + 1 + random.below(end - begin);
            file.truncate(at.min(file.len()));
        }
        _ => {
            let new = one_record(random);
            file.extend(new);
        }
    }
}

/// Files that come near a limit, meet it or pass it.
pub fn limits(random: &mut Random) -> Vec<u8> {
    let mut file = File::default();
    match random.below(8 + usize::from(random.slivers)) {
        0 => many_thresholds(random, &mut file),
        1 => long_thresholds(random, &mut file),
        2 => many_answers(random, &mut file),
        3 => many_bytes(random, &mut file),
        4 => many_nodes(random, &mut file),
        5 => far_bounds(random, &mut file),
        6 => wide_search(random, &mut file),
        7 => equal_chain(random, &mut file),
        _ => many_slivers(random, &mut file),
    }
    if random.chance(6) {
        damage(random, &mut file.0);
    }
    file.0
}

fn many_thresholds(random: &mut Random, file: &mut File) {
    file.header(4_096 - random.below(2));
    let count = random.range(1_022, 1_026) as usize;
    let first = random.below(20);
    for place in 0..count {
        file.threshold(first + place, random.range(-1, 12));
        for _ in 0..random.below(4) {
            file.term(random.below(30), random.range(0, 6) as u32);
        }
    }
    file.seal();
    for _ in 0..random.below(12) {
        file.mark(random.below(count), u8::from(random.chance(2)));
    }
    file.sift();
}

fn long_thresholds(random: &mut Random, file: &mut File) {
    let nodes = random.range(1, 4_096) as usize;
    file.header(nodes);
    let count = random.range(1, 4.min(nodes as i64)) as usize;
    for place in 0..count {
        let full = 1_024 - if place + 1 < count { 0 } else { random.below(3) };
        let extra = usize::from(random.chance(6));
        file.threshold(place, random.range(0, 4_000));
        for _ in 0..full + extra {
            file.term(random.below(nodes), random.range(0, 9) as u32);
        }
    }
    if count == 4 && nodes > 4 {
        file.threshold(4, random.range(0, 9));
        for _ in 0..random.below(5) {
            file.area(random.below(nodes), random.range(0, 900) as u32);
        }
    }
    file.seal();
    file.mark(0, u8::from(random.chance(2)));
    file.sift();
}

/// Thresholds of about 1,024 areas, of few conditions or of many, with a term now and then.
fn many_slivers(random: &mut Random, file: &mut File) {
    let nodes = random.pick(&[6, 7, 40, 300, 4_096]);
    file.header(nodes);
    let most = random.pick(&[30, 149, 5_000, u32::MAX]);
    let tiles = random.pick(&[1, 2, nodes]);
    let terms = random.pick(&[9, 200, 2_000]);
    let count = random.range(1, 5) as usize;
    for node in 0..count {
        let full = random.pick(&[1_022, 1_023, 1_024, 1_024, 1_024, 1_024, 1_024, 1_025]);
        let bound = random.range(0, 1 + i64::from(most) * 5);
        file.threshold(node, bound);
        for _ in 0..if node < 4 { full } else { random.below(3) } {
            let (tile, area) =
                (random.below(tiles), most - random.below(1 + most as usize / 3) as u32);
            if random.chance(terms) {
                file.term(tile, area);
            } else {
                file.area(tile, area);
            }
        }
    }
    file.seal();
    file.mark(0, u8::from(random.chance(2)));
    file.mark(random.below(nodes), u8::from(random.chance(2)));
    file.sift();
}

fn many_answers(random: &mut Random, file: &mut File) {
    file.script("header 6; threshold 4 6; term 0 5; term 1 5; term 2 4; term 3 4; seal");
    for _ in 0..random.range(62, 66) {
        if random.chance(2) {
            file.settle();
        } else {
            file.sift();
        }
        if random.chance(40) {
            file.mark(random.below(6), u8::from(random.chance(2)));
        }
    }
}

fn many_bytes(random: &mut Random, file: &mut File) {
    file.script("header 9; threshold 4 3; term 0 2; term 1 2; seal");
    let length = random.range(65_530, 65_540) as usize;
    while file.0.len() + 4 <= length {
        file.mark(if random.chance(900) { random.below(9) } else { 7 }, 1);
    }
    while file.0.len() < length {
        file.settle();
    }
}

fn many_nodes(random: &mut Random, file: &mut File) {
    let nodes = random.range(4_093, 4_098) as usize;
    file.header(nodes);
    file.threshold(0, 7);
    file.term(nodes - 1, 3);
    file.term(nodes - 2 - random.below(60), 5);
    file.seal();
    for node in 0..nodes {
        if random.chance(2) {
            file.mark(node, u8::from(random.chance(2)));
        }
    }
    file.mark(nodes - usize::from(!random.chance(8)), 1);
    file.sift();
}

fn far_bounds(random: &mut Random, file: &mut File) {
    let edge = threshold_oracle::job::BOUND;
    file.header(12);
    for node in 0..random.below(6) {
        let far = edge - random.below(2) as i64 + i64::from(random.chance(9)) * 2;
        file.threshold(2 * node, if random.chance(2) { far } else { -far });
        for _ in 0..random.below(4) {
            file.term(random.below(12), u32::MAX - random.below(2) as u32);
        }
    }
    file.seal();
    for _ in 0..random.below(5) {
        file.mark(random.below(12), u8::from(random.chance(2)));
    }
    file.sift();
}

/// A row of up to 1,024 terms with a window near the most words of a plan.
fn wide_search(random: &mut Random, file: &mut File) {
    let count = random.pick(&[8, 40, 200, 1_000, 1_024]);
    let words = 4 * count as i64 - 5;
    let high = (words - random.pick(&[0, 0, 1, words / 2])) * 64 + random.range(-1, 1);
    let low = high - random.range(1, 3);
    let heavy = (high * 5 / (4 * count as i64)).max(2);
    file.header(count + 2);
    for (node, bound) in [(count, low), (count + 1, high)] {
        file.threshold(node, bound);
        for condition in 0..count {
            file.term(condition, (heavy + (condition % 3) as i64) as u32);
        }
    }
    file.seal();
    file.mark(count, 1);
    file.mark(count + 1, 0);
    file.sift();
}

/// Rows equal only without zeros, in a chain through which both bounds pass.
fn equal_chain(random: &mut Random, file: &mut File) {
    let count = random.pick(&[20, 300, 1_024]);
    file.header(count + 3);
    let weights = random.pick(&[[5, 4, 3], [5, 5, 5], [7, 4, 2]]);
    for place in 0..count {
        let bound = if place == 0 {
            6
        } else if place + 1 == count {
            8
        } else {
            7
        };
        file.threshold(3 + place, bound);
        for (condition, weight) in weights.iter().enumerate() {
            file.term(condition, *weight);
        }
        file.term(3 + place, 0);
    }
    file.seal();
    if random.chance(2) {
        file.mark(3, 1);
        file.mark(2 + count, 0);
    } else {
        for place in 0..count {
            file.mark(3 + place, 1);
        }
    }
    if random.chance(2) {
        file.settle();
    }
    file.sift();
}
