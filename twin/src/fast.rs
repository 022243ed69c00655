//! The same search, made for speed: decision values are kept from step to step. The steps are those of the rules,
//! one by one, and so are the answers; tests hold it to the plain decoder.

use crate::block;
use crate::check::{self, Check};
use crate::decoder::{Limits, Met, Report};
use crate::plan::{Kind, Plan};
use crate::recover::recover;
use crate::refusal::{refuse, Refusal};
use crate::store::lesser;
use crate::walk;

const WORDS: usize = 16;
type Row = [u64; WORDS];

/// A path with its place in the order: `rank` is the metric and then the missing length.
#[derive(Clone, Copy)]
struct Held {
    rank: u64,
    serial: u32,
    row: u32,
}

const LENGTH_BITS: u32 = 11;

impl Held {
    fn new(metric: u32, length: usize, serial: u32, row: u32) -> Held {
        let missing = (1 << LENGTH_BITS) - 1 - length as u64;
        Held {
            rank: (metric as u64) << LENGTH_BITS | missing,
            serial,
            row,
        }
    }
    fn metric(self) -> u32 {
        (self.rank >> LENGTH_BITS) as u32
    }
    fn length(self) -> usize {
        let low = (1 << LENGTH_BITS) - 1;
        (low - (self.rank & low)) as usize
    }
    fn comes_before(self, other: Held) -> bool {
        (self.rank, self.serial) < (other.rank, other.serial)
    }
}

/// For digit d, the places of a word of 64 bits whose digit d is 0.
const LOW: [u64; 6] = [
    0x5555_5555_5555_5555,
    0x3333_3333_3333_3333,
    0x0F0F_0F0F_0F0F_0F0F,
    0x00FF_00FF_00FF_00FF,
    0x0000_FFFF_0000_FFFF,
    0x0000_0000_FFFF_FFFF,
];

fn transform_word(mut word: u64, digits: u32) -> u64 {
    for d in 0..digits {
        word ^= word >> (1 << d) & LOW[d as usize];
    }
    word
}

/// The transform of 2^m packed bits from `start`, a multiple of 2^m, on.
fn transform(row: &Row, start: usize, m: u32) -> Row {
    let mut out = [0; WORDS];
    if m < 6 {
        let bits = row[start / 64] >> (start % 64) & ((1 << (1 << m)) - 1);
        out[0] = transform_word(bits, m);
        return out;
    }
    let count = 1 << (m - 6);
    for (word, from) in out.iter_mut().zip(&row[start / 64..start / 64 + count]) {
        *word = transform_word(*from, 6);
    }
    let mut step = 1;
    while step < count {
        for at in (0..count).filter(|at| at & step == 0) {
            out[at] ^= out[at + step];
        }
        step *= 2;
    }
    out
}

fn f(a: i32, b: i32) -> i32 {
    let sign = (a ^ b) >> 31;
    (a.abs().min(b.abs()) ^ sign) - sign
}

fn all_f(above: &[i32], out: &mut [i32]) {
    let (left, right) = above.split_at(out.len());
    for ((slot, &a), &b) in out.iter_mut().zip(left).zip(right) {
        *slot = f(a, b);
    }
}

/// One bit of 32 each, so that the choice between sum and difference has no shifts.
const ONE_OF_32: [u32; 32] = {
    let mut table = [0; 32];
    let mut i = 0;
    while i < 32 {
        table[i] = 1 << i;
        i += 1;
    }
    table
};

fn all_g(above: &[i32], sums: &Row, out: &mut [i32]) {
    let half = out.len();
    for start in (0..half).step_by(32) {
        let end = half.min(start + 32);
        let word = (sums[start / 64] >> (start % 64)) as u32;
        let (left, right) = (&above[start..end], &above[half + start..half + end]);
        let pairs = left.iter().zip(right).zip(&ONE_OF_32);
        for (slot, ((&a, &b), &one)) in out[start..end].iter_mut().zip(pairs) {
            let minus = -((word & one == one) as i32);
            *slot = b + ((a ^ minus) - minus);
        }
    }
}

/// How many bits two paths share, at most `most`.
fn shared(a: &Row, b: &Row, most: usize) -> usize {
    for (at, (x, y)) in a.iter().zip(b).enumerate() {
        if 64 * at >= most {
            break;
        }
        if x != y {
            return most.min(64 * at + (x ^ y).trailing_zeros() as usize);
        }
    }
    most
}

/// Decision values by level: the 2^m values of level m stand from 2^m on, the LLRs on top.
struct Levels {
    n: u32,
    values: Vec<i32>,
    /// The position whose values stand here; absent before the first.
    at: Option<usize>,
    /// How many bits of the path in hand are known to be those that the values were worked out from.
    agreed: usize,
}

impl Levels {
    /// The lowest level that still holds for the path in hand at this position.
    fn lowest_valid(&self, position: usize) -> u32 {
        let Some(at) = self.at else {
            return self.n;
        };
        let holds = |m: &u32| (position ^ at) >> m == 0 && position >> m << m <= self.agreed;
        (0..self.n).find(holds).unwrap_or(self.n)
    }

    fn decision(&mut self, path: &Row, position: usize) -> i32 {
        for m in (0..self.lowest_valid(position)).rev() {
            let size = 1 << m;
            let (below, above) = self.values[size..4 * size].split_at_mut(size);
            if position & size == 0 {
                all_f(above, below);
            } else {
                let start = position >> (m + 1) << (m + 1);
                all_g(above, &transform(path, start, m), below);
            }
        }
        self.at = Some(position);
        self.agreed = position;
        self.values[1]
    }
}

/// A search of one block. The store's first candidate is held in hand: one that would be put and taken again at
/// once never moves.
pub struct Search<'b> {
    plan: &'b Plan,
    check: &'b dyn Check,
    limits: Limits,
    levels: Levels,
    information: Vec<usize>,
    hand: Option<Held>,
    /// All others that are kept, the last first.
    kept: Vec<Held>,
    floor: Option<u32>,
    rows: Vec<Row>,
    free: Vec<u32>,
    word: Option<Held>,
    steps: u32,
    failures: u32,
    serial: u32,
}

impl<'b> Search<'b> {
    /// A search of a block that a load would grant.
    pub fn new(plan: &'b Plan, check: &'b dyn Check, llrs: &[i32], limits: Limits) -> Search<'b> {
        let mut values = vec![0; plan.len()];
        values.extend(llrs);
        Search {
            plan,
            check,
            limits,
            levels: Levels {
                n: plan.n,
                values,
                at: None,
                agreed: 0,
            },
            information: plan.positions(Kind::Information),
            hand: Some(Held::new(0, 0, 0, 0)),
            kept: Vec::with_capacity(limits.capacity),
            floor: None,
            rows: vec![[0; WORDS]; limits.capacity + 1],
            free: (1..=limits.capacity as u32).collect(),
            word: None,
            steps: 0,
            failures: 0,
            serial: 1,
        }
    }

    /// Goes on until a word is shown or the search is over.
    pub fn advance(&mut self) -> (Met, Report) {
        self.word = None;
        let met = loop {
            let Some(first) = self.hand else {
                break Met::NoneLeft;
            };
            if self.failures == self.limits.failures || self.steps == self.limits.steps {
                break Met::GivenUp;
            }
            self.steps += 1;
            if first.length() < self.plan.len() {
                self.put_children(first);
            } else if self.judge(first) {
                break Met::Shown;
            }
        };
        (met, self.report())
    }

    /// The payload of the word that was shown last, until the next advance.
    pub fn payload(&self) -> Option<Vec<u8>> {
        let bits = self.information_bits(self.word?);
        Some(self.check.read(self.plan.payload, &bits))
    }

    fn report(&self) -> Report {
        Report {
            metric: self.word.map(Held::metric),
            floor: self.floor,
            bound: lesser(self.floor, self.hand.map(Held::metric)),
            steps: self.steps,
            failures: self.failures,
        }
    }

    fn information_bits(&self, held: Held) -> Vec<u8> {
        let row = &self.rows[held.row as usize];
        let on_path = self.information.iter().take_while(|&&i| i < held.length());
        on_path
            .map(|&i| (row[i / 64] >> (i % 64) & 1) as u8)
            .collect()
    }

    fn judge(&mut self, whole: Held) -> bool {
        let bits = self.information_bits(whole);
        let accepted = self.check.accepts(self.plan.payload, &bits);
        self.free.push(whole.row);
        self.take_next(whole.row);
        if accepted {
            self.word = Some(whole);
        } else {
            self.failures += 1;
        }
        accepted
    }

    fn put_children(&mut self, parent: Held) {
        let at = parent.length();
        let value = self.levels.decision(&self.rows[parent.row as usize], at);
        let cost = |bit: u64| (if bit == 0 { -value } else { value }).max(0) as u32;
        match self.plan.kinds[at] {
            Kind::Frozen => self.go_on(parent, 0, cost(0)),
            Kind::Parity => {
                let bit = self.parity_bit(parent, at);
                self.go_on(parent, bit, cost(bit));
            }
            Kind::Information if self.check.watches() => self.put_hopeful(parent, cost),
            Kind::Information => self.fork(parent, [cost(0), cost(1)]),
        }
    }

    fn put_hopeful(&mut self, parent: Held, cost: impl Fn(u64) -> u32) {
        let mut bits = self.information_bits(parent);
        let hopeful = [0, 1].map(|bit| {
            bits.push(bit);
            let hopeless = self.check.hopeless(self.plan.payload, &bits);
            bits.pop();
            !hopeless
        });
        match hopeful {
            [true, true] => self.fork(parent, [cost(0), cost(1)]),
            [true, false] => self.go_on(parent, 0, cost(0)),
            [false, true] => self.go_on(parent, 1, cost(1)),
            [false, false] => {
                self.free.push(parent.row);
                self.take_next(parent.row);
            }
        }
    }

    fn parity_bit(&self, parent: Held, at: usize) -> u64 {
        let row = &self.rows[parent.row as usize];
        let bit = |j: usize| row[j / 64] >> (j % 64) & 1;
        let same = |j: &usize| self.plan.kinds[*j] == Kind::Information;
        (at % 5..at)
            .step_by(5)
            .filter(same)
            .fold(0, |sum, j| sum ^ bit(j))
    }

    /// A child with the next serial but `later`, its last bit written to `row`.
    fn child(&mut self, parent: Held, bit: u64, cost: u32, later: u32, row: u32) -> Held {
        let at = parent.length();
        let word = &mut self.rows[row as usize][at / 64];
        *word = *word & !(1 << (at % 64)) | bit << (at % 64);
        Held::new(parent.metric() + cost, at + 1, self.serial + later, row)
    }

    /// One child, in its parent's row.
    fn go_on(&mut self, parent: Held, bit: u64, cost: u32) {
        let child = self.child(parent, bit, cost, 0, parent.row);
        self.serial += 1;
        self.hold(child);
    }

    /// Both children: the better may stay in hand, the other goes to the store or is shed.
    fn fork(&mut self, parent: Held, costs: [u32; 2]) {
        let better = (costs[1] < costs[0]) as u32;
        let worse = 1 - better;
        let cost = costs[worse as usize];
        let rank = Held::new(
            parent.metric() + cost,
            parent.length() + 1,
            self.serial + worse,
            0,
        );
        if let Some(row) = self.row_for(rank) {
            let used = parent.length() / 64 + 1;
            let copied: Row = self.rows[parent.row as usize];
            self.rows[row as usize][..used].copy_from_slice(&copied[..used]);
            let other = self.child(parent, worse as u64, cost, worse, row);
            self.insert(other);
        }
        let cost = costs[better as usize];
        let first = self.child(parent, better as u64, cost, better, parent.row);
        self.serial += 2;
        self.hold(first);
    }

    /// A row for a newcomer beside the one in hand. In a full store it or the last is shed.
    fn row_for(&mut self, newcomer: Held) -> Option<u32> {
        if self.kept.len() + 2 > self.limits.capacity {
            let last = self.kept[0];
            let keeps = newcomer.comes_before(last);
            let shed = if keeps { last } else { newcomer };
            self.floor = lesser(self.floor, Some(shed.metric()));
            if !keeps {
                return None;
            }
            self.free.push(last.row);
            self.kept.remove(0);
        }
        self.free.pop()
    }

    fn insert(&mut self, newcomer: Held) {
        let after = self
            .kept
            .iter()
            .rev()
            .take_while(|held| held.comes_before(newcomer));
        self.kept.insert(self.kept.len() - after.count(), newcomer);
    }

    /// The child in hand goes on if it is still the first, else the store's first does.
    fn hold(&mut self, child: Held) {
        match self.kept.last() {
            Some(&first) if first.comes_before(child) => {
                self.insert(child);
                self.take_next(child.row);
            }
            _ => self.hand = Some(child),
        }
    }

    /// The first of the store comes into hand in place of the path in `before`.
    fn take_next(&mut self, before: u32) {
        self.hand = self.kept.pop();
        if let Some(next) = self.hand {
            let rows = [before, next.row].map(|row| &self.rows[row as usize]);
            let agreed = shared(rows[0], rows[1], self.levels.agreed.min(next.length()));
            self.levels.agreed = agreed;
        }
    }
}

/// What polarwalk prints for a block file.
pub fn lines(bytes: &[u8]) -> Vec<String> {
    let mut out = Vec::new();
    if let Err(refusal) = walk_fast(bytes, &mut out) {
        out.push(refusal.to_string());
    }
    out
}

fn walk_fast(bytes: &[u8], out: &mut Vec<String>) -> Result<(), Refusal> {
    let block = block::read(bytes)?;
    let plan = walk::plan_of(&block)?;
    let mut llrs = vec![0; plan.len()];
    recover(&plan, &block.values, &mut llrs)?;
    if !block.limits.are_lawful() {
        return refuse("load", 10, 0);
    }
    let check = check::by_code(block.check).expect("reading lets listed codes through only");
    let mut search = Search::new(&plan, &*check, &llrs, block.limits);
    for _ in 0..block.words {
        let (met, report) = search.advance();
        out.push(walk::line(met, &report, search.payload()));
        if met != Met::Shown {
            break;
        }
    }
    Ok(())
}

#[cfg(test)]
mod tests {
    use super::{lines, transform, Row, WORDS};
    use crate::encode;
    use crate::material::{block_file, Random};
    use crate::stored_walks;
    use crate::walk;

    #[test]
    fn packed_transform_is_the_transform() {
        let mut random = Random(5);
        let row: Row = [0; WORDS].map(|_| random.next());
        let bit = |row: &Row, i: usize| (row[i / 64] >> (i % 64) & 1) as u8;
        for m in 0..10 {
            for start in (0..1024).step_by(1 << m).step_by(3) {
                let bits: Vec<u8> = (0..1 << m).map(|i| bit(&row, start + i)).collect();
                let packed = transform(&row, start, m);
                let unpacked: Vec<u8> = (0..1 << m).map(|i| bit(&packed, i)).collect();
                assert_eq!(unpacked, encode::transform(&bits));
            }
        }
    }

    #[test]
    fn fast_and_plain_search_answer_alike() {
        let mut random = Random(41);
        let fresh = (0..300).map(|_| block_file(&mut random));
        for bytes in stored_walks::blocks().into_iter().chain(fresh) {
            assert_eq!(lines(&bytes), walk::lines(&bytes), "{}", walk::hex(&bytes));
        }
    }
}
