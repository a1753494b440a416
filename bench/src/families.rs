//! Job files by family, seeded. A size of `n` out of `of` scales a family's terms and events; `n == of` is what the limits allow.

/// Xorshift.
pub struct Random(u64);

impl Random {
    pub fn new(seed: u64) -> Self {
        let mut random = Self(seed.wrapping_mul(0x9e37_79b9_7f4a_7c15) | 1);
        for _ in 0..8 {
            random.next();
        }
        random
    }

    fn next(&mut self) -> u64 {
        self.0 ^= self.0 << 13;
        self.0 ^= self.0 >> 7;
        self.0 ^= self.0 << 17;
        self.0 >> 11
    }

    fn below(&mut self, end: usize) -> usize {
        (self.next() % end as u64) as usize
    }

    fn shuffle<T>(&mut self, list: &mut [T]) {
        for last in (1..list.len()).rev() {
            list.swap(last, self.below(last + 1));
        }
    }

    /// Different numbers below `end`, in no order.
    fn choose(&mut self, count: usize, end: usize) -> Vec<usize> {
        let mut all: Vec<usize> = (0..end).collect();
        self.shuffle(&mut all);
        all.truncate(count);
        all
    }

    /// A few different numbers below `end`.
    fn choose_few(&mut self, count: usize, end: usize) -> Vec<usize> {
        let mut chosen = Vec::new();
        while chosen.len() < count {
            let one = self.below(end);
            if !chosen.contains(&one) {
                chosen.push(one);
            }
        }
        chosen
    }
}

/// Kinds of records: a term, and an area.
const TERM: u8 = 3;
const AREA: u8 = 8;

/// A job file, record by record.
#[derive(Default)]
pub struct File(pub Vec<u8>);

impl File {
    pub fn header(nodes: usize) -> Self {
        let mut file = Self::default();
        file.0.push(1);
        file.0.extend((nodes as u16).to_le_bytes());
        file
    }

    fn threshold(&mut self, node: usize, bound: i64) {
        self.0.push(2);
        self.0.extend((node as u16).to_le_bytes());
        self.0.extend(bound.to_le_bytes());
    }

    fn terms(&mut self, terms: impl IntoIterator<Item = (usize, u32)>) {
        self.list(TERM, terms);
    }

    fn list(&mut self, kind: u8, list: impl IntoIterator<Item = (usize, u32)>) {
        for (condition, number) in list {
            self.0.push(kind);
            self.0.extend((condition as u16).to_le_bytes());
            self.0.extend(number.to_le_bytes());
        }
    }

    fn mark(&mut self, node: usize, sure: bool) {
        self.0.extend([5, node as u8, (node >> 8) as u8, sure.into()]);
    }

    fn seal(&mut self) {
        self.0.push(4);
    }

    fn settle(&mut self) {
        self.0.push(6);
    }

    fn sift(&mut self) {
        self.0.push(7);
    }
}

pub struct Family {
    pub name: &'static str,
    /// Files of this size.
    pub make: fn(&mut Random, n: usize, of: usize) -> Vec<Vec<u8>>,
    /// Whether sizes can be doubled.
    pub grows: bool,
}

pub const FAMILIES: [Family; 27] = [
    Family { name: "tiny jobs", make: tiny, grows: false },
    Family { name: "1,024 thresholds of 4 terms, sealed", make: many_sealed, grows: true },
    Family { name: "the same, some marked and settled", make: many_settled, grows: true },
    Family { name: "4 of 1,024 terms, in no order", make: long_random, grows: true },
    Family { name: "4 of 1,024 terms, falling", make: long_falling, grows: true },
    Family { name: "4 of 1,024 terms, equal", make: long_equal, grows: true },
    Family { name: "4 of 1,024 areas, a tile each", make: long_areas, grows: true },
    Family { name: "4 of 1,024 areas, each tile in 4 slivers", make: long_slivers, grows: true },
    Family { name: "4 of 1,024 areas, 512 tiles in turns", make: turned_slivers, grows: true },
    Family { name: "all rows equal but for order", make: same_rows, grows: true },
    Family { name: "all raw lists equal", make: shared_rows, grows: true },
    Family { name: "1,024 raw lists of one fingerprint", make: colliding, grows: true },
    Family { name: "the same, alike in all lower digits", make: colliding_deep, grows: true },
    Family { name: "64 of 64 terms, of one fingerprint", make: colliding_long, grows: true },
    Family { name: "prefix chain, each row one longer", make: prefix_chain, grows: true },
    Family { name: "prefix chain of 1,024 equal rows", make: equal_chain, grows: true },
    Family { name: "the same, bounds back and forth", make: swaying_chain, grows: true },
    Family { name: "every node marked, 64 settles", make: marked_one_by_one, grows: true },
    Family { name: "one mark decides 4,096 nodes, a tree", make: cascade_tree, grows: true },
    Family { name: "one mark decides 1,024 nodes, a line", make: cascade_line, grows: true },
    Family { name: "64 sifts with residual rows", make: residuals, grows: true },
    Family { name: "the same, weights below 64", make: small_residuals, grows: true },
    Family { name: "the same, these weights times 1,024", make: scaled_residuals, grows: true },
    Family { name: "256 residual rows of 8 weights below 64", make: short_residuals, grows: true },
    Family { name: "searches over many words, cut short", make: searches_cut, grows: true },
    Family { name: "searches to their end", make: searches_whole, grows: true },
    Family { name: "refused files", make: refused, grows: false },
];

/// Files A and B, and small jobs of the same kind.
fn tiny(random: &mut Random, _: usize, _: usize) -> Vec<Vec<u8>> {
    let mut a = File::header(5);
    a.threshold(4, 6);
    a.terms([(0, 4), (1, 3), (2, 2)]);
    a.seal();
    a.mark(4, true);
    a.settle();
    let mut files = vec![a.0];
    for _ in 0..7 {
        let mut file = File::header(6);
        let list: Vec<_> =
            (0..4).map(|condition| (condition, 4 + random.below(3) as u32)).collect();
        for (node, bound) in [(4, 6), (5, 8 + random.below(8) as i64)] {
            file.threshold(node, bound);
            file.terms(list.iter().copied());
        }
        file.seal();
        file.mark(4, true);
        file.mark(5, false);
        file.settle();
        file.sift();
        files.push(file.0);
    }
    files
}

/// A job of 4-term thresholds in the upper quarter of the nodes, over conditions in the lower three; with a layout that it allows.
fn many(random: &mut Random, n: usize, of: usize) -> (File, Vec<bool>) {
    let thresholds = 1_024 * n / of;
    let conditions = 3 * thresholds;
    let mut layout: Vec<bool> = (0..conditions).map(|_| random.below(2) == 0).collect();
    let mut file = File::header(conditions + thresholds);
    for node in conditions..conditions + thresholds {
        let list: Vec<_> = random
            .choose_few(4, conditions)
            .into_iter()
            .map(|one| (one, 1 + random.below(1_000_000) as u32))
            .collect();
        let bound = random.below(2_000_000) as i64;
        let sum: i64 =
            list.iter().filter(|term| layout[term.0]).map(|term| i64::from(term.1)).sum();
        layout.push(sum >= bound);
        file.threshold(node, bound);
        file.terms(list);
    }
    file.seal();
    (file, layout)
}

fn many_sealed(random: &mut Random, n: usize, of: usize) -> Vec<Vec<u8>> {
    vec![many(random, n, of).0 .0]
}

/// An eighth of the nodes marked as the layout has them, settled once.
fn many_settled(random: &mut Random, n: usize, of: usize) -> Vec<Vec<u8>> {
    let (mut file, layout) = many(random, n, of);
    for node in random.choose(layout.len() / 8, layout.len()) {
        file.mark(node, layout[node]);
    }
    file.settle();
    vec![file.0]
}

fn marked_one_by_one(random: &mut Random, n: usize, of: usize) -> Vec<Vec<u8>> {
    let (mut file, layout) = many(random, n, of);
    let order = random.choose(layout.len(), layout.len());
    for part in order.chunks(layout.len() / 64) {
        for &node in part {
            file.mark(node, layout[node]);
        }
        file.settle();
    }
    vec![file.0]
}

/// Four thresholds over all nodes but their own; the first is marked, so that bounds are set.
fn long(
    kind: u8,
    n: usize,
    of: usize,
    mut number: impl FnMut(usize, usize) -> (usize, u32),
) -> Vec<Vec<u8>> {
    let terms = 1_024 * n / of;
    let mut file = File::header(terms + 4);
    for row in 0..4 {
        file.threshold(terms + row, 1_000 * (row as i64 + 1));
        file.list(kind, (0..terms).map(|place| number(row, place)));
    }
    file.seal();
    file.mark(terms, true);
    file.settle();
    vec![file.0]
}

fn long_random(random: &mut Random, n: usize, of: usize) -> Vec<Vec<u8>> {
    let orders = orders(random, n, of);
    long(TERM, n, of, |row, place| (orders[row][place], 1 + random.below(4_000_000_000) as u32))
}

/// For each of the four thresholds an order of its terms.
fn orders(random: &mut Random, n: usize, of: usize) -> Vec<Vec<usize>> {
    let terms = 1_024 * n / of;
    (0..4).map(|_| random.choose(terms, terms)).collect()
}

fn long_falling(_: &mut Random, n: usize, of: usize) -> Vec<Vec<u8>> {
    long(TERM, n, of, |row, place| (place, 4_000_000_000 - (row * 10_000 + place * 1_000) as u32))
}

fn long_equal(_: &mut Random, n: usize, of: usize) -> Vec<Vec<u8>> {
    long(TERM, n, of, |row, place| (place, 7 + row as u32))
}

/// No area has another to join.
fn long_areas(random: &mut Random, n: usize, of: usize) -> Vec<Vec<u8>> {
    let orders = orders(random, n, of);
    long(AREA, n, of, |row, place| (orders[row][place], 1 + random.below(4_000_000_000) as u32))
}

/// A quarter of the nodes are tiles, and the four slivers of each stand anywhere.
fn long_slivers(random: &mut Random, n: usize, of: usize) -> Vec<Vec<u8>> {
    let orders = orders(random, n, of);
    long(AREA, n, of, |row, place| (orders[row][place] / 4, 1 + random.below(4_000_000_000) as u32))
}

/// Two slivers of each of 512 tiles, one of each tile in turn.
fn turned_slivers(random: &mut Random, n: usize, of: usize) -> Vec<Vec<u8>> {
    let tiles = 512 * n / of;
    long(AREA, n, of, |_, place| (place % tiles, 1 + random.below(4_000_000_000) as u32))
}

/// 128 thresholds over one list of 32 terms, each in another order.
fn same_rows(random: &mut Random, n: usize, of: usize) -> Vec<Vec<u8>> {
    let thresholds = 128 * n / of;
    let mut list: Vec<(usize, u32)> =
        (0..32).map(|one| (one, 1 + random.below(1_000_000) as u32)).collect();
    let mut file = File::header(32 + thresholds);
    for row in 0..thresholds {
        random.shuffle(&mut list);
        file.threshold(32 + row, 1_000 * row as i64);
        file.terms(list.iter().copied());
    }
    file.seal();
    file.mark(32 + thresholds / 2, true);
    file.settle();
    vec![file.0]
}

fn shared_rows(random: &mut Random, n: usize, of: usize) -> Vec<Vec<u8>> {
    let thresholds = 1_024 * n / of;
    let list: Vec<(usize, u32)> =
        (0..4).map(|one| (one, 1 + random.below(1_000_000) as u32)).collect();
    let total: u32 = list.iter().map(|term| term.1).sum();
    let mut file = File::header(4 + thresholds);
    for row in 0..thresholds {
        file.threshold(4 + row, random.below(total as usize) as i64);
        file.terms(list.iter().copied());
    }
    file.seal();
    file.mark(4 + thresholds / 2, true);
    file.settle();
    vec![file.0]
}

/// Lists that differ, in one class and with one fingerprint: what the condition of the last term adds its weight takes away.
fn colliding(_: &mut Random, n: usize, of: usize) -> Vec<Vec<u8>> {
    colliding_lists(1_024 * n / of, 2, |row| [(2, 7), (4 + row as usize, 300_000 - 257 * row)])
}

/// The same by two weights, the first of which differ from bit 20 on: a search by digits passes all those below first.
fn colliding_deep(_: &mut Random, n: usize, of: usize) -> Vec<Vec<u8>> {
    colliding_lists(1_024 * n / of, 2, deep_end)
}

/// The same with as many terms as lists: a search compares its list with one for each of its terms.
fn colliding_long(_: &mut Random, n: usize, of: usize) -> Vec<Vec<u8>> {
    let lists = (1..).take_while(|lists| lists * lists <= 4_096 * n / of).last().expect("one");
    colliding_lists(lists, lists - 2, deep_end)
}

fn deep_end(row: u32) -> [(usize, u32); 2] {
    [(2, row << 20), (3, 65_599u32.wrapping_mul(row << 20).wrapping_neg())]
}

fn colliding_lists(lists: usize, alike: usize, end: fn(u32) -> [(usize, u32); 2]) -> Vec<Vec<u8>> {
    let mut file = File::header(4 + 2 * lists);
    for row in 0..lists {
        file.threshold(4 + lists + row, 10 + row as i64);
        let start = [0, 1].into_iter().chain(4..).take(alike).map(|condition| (condition, 9));
        file.terms(start.chain(end(row as u32)));
    }
    file.seal();
    vec![file.0]
}

/// 90 rows, each with the terms of the one before and one more; each mark raises the lower bound of its row and of every longer one.
fn prefix_chain(_: &mut Random, n: usize, of: usize) -> Vec<Vec<u8>> {
    let rows =
        (1..).take_while(|rows| rows * (rows + 1) / 2 <= 4_096 * n / of).last().expect("one");
    let mut file = File::header(2 * rows);
    for row in 0..rows {
        file.threshold(rows + row, 1_000_000 + 1_000 * row as i64);
        file.terms((0..=row).map(|place| (place, 1_000_000 - place as u32)));
    }
    file.seal();
    for row in 3..rows {
        file.mark(rows + row, true);
        if row % 2 == 0 {
            file.settle();
        }
    }
    file.settle();
    vec![file.0]
}

/// Rows that are equal without their terms of weight 0, so that each is linked to the next; each mark raises the lower bound of all.
fn equal_chain(random: &mut Random, n: usize, of: usize) -> Vec<Vec<u8>> {
    let rows = 1_024 * n / of;
    let mut file = File::header(4 + 2 * rows);
    let ranks = random.choose(rows, rows);
    for (row, &rank) in ranks.iter().enumerate() {
        file.threshold(4 + rows + row, 1_000 + rank as i64);
        file.terms([(0, 2_000_000), (1, 1_900_000), (2, 1_800_000), (4 + row, 0)]);
    }
    file.seal();
    let mut rising: Vec<usize> = (0..rows).collect();
    rising.sort_unstable_by_key(|&row| ranks[row]);
    for row in rising.into_iter().step_by(rows / 32) {
        file.mark(4 + rows + row, true);
        file.settle();
    }
    vec![file.0]
}

/// Rows that are equal as above; in turns a mark at one end of the chain raises the lower bound of all, and one at the other lowers the upper.
fn swaying_chain(_: &mut Random, n: usize, of: usize) -> Vec<Vec<u8>> {
    let rows = 1_024 * n / of;
    let ends = 32.min(rows / 4);
    let mut file = File::header(4 + 2 * rows);
    for row in 0..rows {
        let bound = match (row < ends, row + ends >= rows) {
            (true, _) => 1_000 + row,
            (_, true) => 4_000_000 + row,
            _ => 2_500_000 + row,
        };
        file.threshold(4 + rows + row, bound as i64);
        file.terms([(0, 2_000_000), (1, 1_900_000), (2, 1_800_000), (4 + row, 0)]);
    }
    file.seal();
    for turn in 0..ends {
        file.mark(4 + rows + turn, true);
        file.settle();
        file.mark(3 + 2 * rows - turn, false);
        file.settle();
    }
    vec![file.0]
}

/// Node k holds if all of the next four do: sure at the root, sure everywhere.
fn cascade_tree(_: &mut Random, n: usize, of: usize) -> Vec<Vec<u8>> {
    let nodes = 4_096 * n / of;
    let mut file = File::header(nodes);
    for node in 0.. {
        let children: Vec<_> =
            (4 * node + 1..=4 * node + 4).filter(|&child| child < nodes).collect();
        if children.is_empty() {
            break;
        }
        file.threshold(node, 10 * children.len() as i64);
        file.terms(children.into_iter().map(|child| (child, 10)));
    }
    file.seal();
    file.mark(0, true);
    file.settle();
    vec![file.0]
}

/// Node k holds exactly if the next one does.
fn cascade_line(_: &mut Random, n: usize, of: usize) -> Vec<Vec<u8>> {
    let rows = 1_024 * n / of;
    let mut file = File::header(rows + 1);
    for node in 0..rows {
        file.threshold(node, 3);
        file.terms([(node + 1, 3)]);
    }
    file.seal();
    file.mark(0, true);
    file.settle();
    vec![file.0]
}

/// Rows with a lower and an upper bound over the same conditions: each sift finds all of them waiting, since one condition was marked.
fn windows(
    rows: usize,
    terms: usize,
    window: impl Fn(usize) -> (i64, i64),
    mut weight: impl FnMut(usize, usize) -> u32,
) -> File {
    let mut file = File::header(terms + 2 * rows);
    for row in 0..rows {
        let list: Vec<_> = (0..terms).map(|place| (place, weight(row, place))).collect();
        let (lower, upper) = window(row);
        for (guard, bound) in [lower, upper].into_iter().enumerate() {
            file.threshold(terms + 2 * row + guard, bound);
            file.terms(list.iter().copied());
        }
    }
    file.seal();
    for row in 0..rows {
        file.mark(terms + 2 * row, true);
        file.mark(terms + 2 * row + 1, false);
    }
    file
}

/// Multiples of 5 against windows of three sums, of which one is a multiple of 5; too far up for a search.
fn residuals(random: &mut Random, n: usize, of: usize) -> Vec<Vec<u8>> {
    let middle = |row: usize| 5 * (50_000 + 10 * row as i64);
    sifted(
        n,
        of,
        |row| (middle(row) - 1, middle(row) + 2),
        || 5 * (1_000 + random.below(100) as u32),
    )
}

/// Multiples of 6 below 64, which have their gcds in the planner's table; the lightest reach the window, so that each search is short.
fn small_residuals(random: &mut Random, n: usize, of: usize) -> Vec<Vec<u8>> {
    times(random, n, of, 1)
}

/// Every weight and bound 1,024 times as large: the same divisions, which no table has, and no search.
fn scaled_residuals(random: &mut Random, n: usize, of: usize) -> Vec<Vec<u8>> {
    times(random, n, of, 1_024)
}

fn times(random: &mut Random, n: usize, of: usize, unit: u32) -> Vec<Vec<u8>> {
    let window = |row: usize| {
        let middle = 6 * (20 + row as i64);
        (i64::from(unit) * (middle - 1), i64::from(unit) * (middle + 2))
    };
    sifted(n, of, window, || unit * 6 * (1 + random.below(10) as u32))
}

/// Rows that a sift tries again whenever one of their terms was marked.
fn sifted(
    n: usize,
    of: usize,
    window: impl Fn(usize) -> (i64, i64),
    mut weight: impl FnMut() -> u32,
) -> Vec<Vec<u8>> {
    let mut file = windows(16 * n / of, 128, window, |_, _| weight());
    for sift in 0..64 {
        file.mark(sift, false);
        file.sift();
    }
    vec![file.0]
}

/// Short rows with windows around the sum of every other term. Marks follow that choice, so that no search contradicts.
fn short_residuals(random: &mut Random, n: usize, of: usize) -> Vec<Vec<u8>> {
    let rows = 256 * n / of;
    let mut file = File::header(10 * rows);
    for row in 0..rows {
        let list: Vec<_> =
            (0..8).map(|place| (8 * row + place, 1 + random.below(63) as u32)).collect();
        let chosen: i64 = list.iter().step_by(2).map(|&(_, weight)| i64::from(weight)).sum();
        for (guard, bound) in [chosen - 1, chosen + 2].into_iter().enumerate() {
            file.threshold(8 * rows + 2 * row + guard, bound);
            file.terms(list.iter().copied());
        }
    }
    file.seal();
    for row in 0..rows {
        file.mark(8 * rows + 2 * row, true);
        file.mark(8 * rows + 2 * row + 1, false);
    }
    for place in 0..6 {
        (0..rows).for_each(|row| file.mark(8 * row + place, place % 2 == 0));
        file.sift();
    }
    vec![file.0]
}

/// Windows far up: clearing the words and shifting them passes the allowance.
fn searches_cut(random: &mut Random, n: usize, of: usize) -> Vec<Vec<u8>> {
    let terms = 1_024 * n / of;
    let top = 64 * 2 * terms as i64;
    let mut file = windows(
        2,
        terms,
        |row| (top - 8 - row as i64, top - 5),
        |_, _| 1 + 3 * (20 + random.below(300) as u32),
    );
    for sift in 0..64 {
        if sift < terms / 4 {
            file.mark(sift, false);
        }
        file.sift();
    }
    vec![file.0]
}

/// Every term but the heaviest is a multiple of 60 and one is 1, so that the window is met by the last term alone.
fn searches_whole(_: &mut Random, n: usize, of: usize) -> Vec<Vec<u8>> {
    let terms = 1_024 * n / of;
    let weight = |_: usize, place: usize| match place {
        0 => 105,
        1 => 1,
        _ => 60,
    };
    let mut file = windows(2, terms, |row| (104 + row as i64, 110), weight);
    for sift in 0..64 {
        if sift < terms / 4 {
            file.mark(2 + sift, false);
        }
        file.sift();
    }
    vec![file.0]
}

/// Refused at the first byte, before the first byte, in the middle of a large job, behind its seal, at its end.
fn refused(random: &mut Random, _: usize, _: usize) -> Vec<Vec<u8>> {
    let (whole, layout) = many(random, 1, 1);
    let job = whole.0.len() - 1;
    let with = |end: usize, more: &[u8]| [&whole.0[..end], more].concat();
    vec![
        vec![9],
        vec![7; 65_537],
        with(3 + 39 * 512, &[9]),
        with(job, &[3, 0]),
        with(job, &[2, 0, 0, 0, 0, 0, 0, 0, 0, 0, 0]),
        with(job + 1, &[5, 0, 0, 2]),
        with(job + 1, &[5, (layout.len() & 255) as u8, (layout.len() >> 8) as u8, 1]),
        with(job + 1, &[6, 4]),
    ]
}
