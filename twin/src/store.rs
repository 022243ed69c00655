//! Candidate stores: a table kept in order and a heap, with the same meaning.

use std::cmp::Ordering;

#[derive(Clone, Copy, PartialEq, Eq, Debug)]
pub struct Candidate {
    pub metric: u32,
    pub length: usize,
    pub serial: u32,
    pub row: usize,
}

impl Ord for Candidate {
    /// Less means that it comes first.
    fn cmp(&self, other: &Self) -> Ordering {
        (self.metric.cmp(&other.metric))
            .then(other.length.cmp(&self.length))
            .then(self.serial.cmp(&other.serial))
            .then(self.row.cmp(&other.row))
    }
}

impl PartialOrd for Candidate {
    fn partial_cmp(&self, other: &Self) -> Option<Ordering> {
        Some(self.cmp(other))
    }
}

/// The lesser of two numbers of which either may be absent.
pub fn lesser(a: Option<u32>, b: Option<u32>) -> Option<u32> {
    match (a, b) {
        (Some(a), Some(b)) => Some(a.min(b)),
        (a, b) => a.or(b),
    }
}

pub trait Store {
    fn empty(&mut self, capacity: usize);
    fn put(&mut self, newcomer: Candidate);
    fn take(&mut self) -> Option<Candidate>;
    fn first_metric(&self) -> Option<u32>;
    fn floor(&self) -> Option<u32>;
    fn holds_row(&self, row: usize) -> bool;
    /// The kept candidates in order.
    fn kept(&self) -> Vec<Candidate>;
}

/// The store behind a code of the block file.
pub fn by_code(code: u8) -> Option<Box<dyn Store>> {
    Some(match code {
        0 => Box::new(Table::default()),
        1 => Box::new(Heap::default()),
        _ => return None,
    })
}

#[derive(Default)]
pub struct Table {
    kept: Vec<Candidate>,
    capacity: usize,
    floor: Option<u32>,
}

impl Store for Table {
    fn empty(&mut self, capacity: usize) {
        *self = Table {
            kept: Vec::new(),
            capacity: capacity.clamp(2, 128),
            floor: None,
        };
    }
    fn put(&mut self, newcomer: Candidate) {
        let at = self.kept.partition_point(|c| *c < newcomer);
        self.kept.insert(at, newcomer);
        if self.kept.len() > self.capacity {
            let shed = self.kept.pop().map(|c| c.metric);
            self.floor = lesser(self.floor, shed);
        }
    }
    fn take(&mut self) -> Option<Candidate> {
        (!self.kept.is_empty()).then(|| self.kept.remove(0))
    }
    fn first_metric(&self) -> Option<u32> {
        self.kept.first().map(|c| c.metric)
    }
    fn floor(&self) -> Option<u32> {
        self.floor
    }
    fn holds_row(&self, row: usize) -> bool {
        self.kept.iter().any(|c| c.row == row)
    }
    fn kept(&self) -> Vec<Candidate> {
        self.kept.clone()
    }
}

/// A binary heap: no candidate comes before its parent at (i − 1) / 2.
#[derive(Default)]
pub struct Heap {
    nodes: Vec<Candidate>,
    capacity: usize,
    floor: Option<u32>,
}

impl Heap {
    fn rise(&mut self, mut i: usize) {
        while i > 0 && self.nodes[i] < self.nodes[(i - 1) / 2] {
            self.nodes.swap(i, (i - 1) / 2);
            i = (i - 1) / 2;
        }
    }
    fn sink(&mut self, mut i: usize) {
        while let Some(child) =
            (2 * i + 1..(2 * i + 3).min(self.nodes.len())).min_by_key(|&c| self.nodes[c])
        {
            if self.nodes[i] < self.nodes[child] {
                return;
            }
            self.nodes.swap(i, child);
            i = child;
        }
    }
}

impl Store for Heap {
    fn empty(&mut self, capacity: usize) {
        *self = Heap {
            nodes: Vec::new(),
            capacity: capacity.clamp(2, 128),
            floor: None,
        };
    }
    fn put(&mut self, newcomer: Candidate) {
        if self.nodes.len() < self.capacity {
            self.nodes.push(newcomer);
            return self.rise(self.nodes.len() - 1);
        }
        let last = (0..self.nodes.len())
            .max_by_key(|&i| self.nodes[i])
            .expect("capacity ≥ 2");
        let mut shed = newcomer;
        if newcomer < self.nodes[last] {
            // the last has no children, so only the way up can be out of order
            std::mem::swap(&mut shed, &mut self.nodes[last]);
            self.rise(last);
        }
        self.floor = lesser(self.floor, Some(shed.metric));
    }
    fn take(&mut self) -> Option<Candidate> {
        if self.nodes.is_empty() {
            return None;
        }
        let first = self.nodes.swap_remove(0);
        self.sink(0);
        Some(first)
    }
    fn first_metric(&self) -> Option<u32> {
        self.nodes.first().map(|c| c.metric)
    }
    fn floor(&self) -> Option<u32> {
        self.floor
    }
    fn holds_row(&self, row: usize) -> bool {
        self.nodes.iter().any(|c| c.row == row)
    }
    fn kept(&self) -> Vec<Candidate> {
        let mut sorted = self.nodes.clone();
        sorted.sort();
        sorted
    }
}
