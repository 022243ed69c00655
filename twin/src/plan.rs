//! The plan: mode, order of places, reliability, and what every position carries.

use crate::check::Check;
use crate::refusal::{refuse, Refusal};

const PATTERN: [usize; 32] = [
    0, 1, 2, 4, 3, 5, 6, 7, 8, 16, 9, 17, 10, 18, 11, 19, //
    12, 20, 13, 21, 14, 22, 15, 23, 24, 25, 26, 28, 27, 29, 30, 31,
];

const WEIGHTS: [u32; 10] = [
    65536, 77936, 92682, 110218, 131072, 155872, 185364, 220436, 262144, 311744,
];

#[derive(Clone, Copy, PartialEq, Eq, Debug)]
pub enum Mode {
    Repeat,
    Puncture,
    Shorten,
}

#[derive(Clone, Copy, PartialEq, Eq, Debug)]
pub enum Kind {
    Frozen,
    Parity,
    Information,
}

/// The numbers that a plan is made from, the check aside.
#[derive(Clone, Copy, PartialEq, Eq, Debug)]
pub struct Request {
    pub n: u32,
    pub payload: usize,
    pub sent: usize,
    pub low: usize,
    pub parity: usize,
}

#[derive(Clone, PartialEq, Eq, Debug)]
pub struct Plan {
    pub n: u32,
    pub payload: usize,
    pub check_bits: usize,
    pub mode: Mode,
    /// The place of each sent bit.
    pub sent: Vec<usize>,
    pub kinds: Vec<Kind>,
}

pub fn mode(len: usize, word: usize, sent: usize) -> Mode {
    if sent >= len {
        Mode::Repeat
    } else if 16 * word <= 7 * sent {
        Mode::Puncture
    } else {
        Mode::Shorten
    }
}

/// The place that comes k-th: J(k).
pub fn place(len: usize, k: usize) -> usize {
    let run = len / 32;
    PATTERN[32 * k / len] * run + k % run
}

pub fn weight(position: usize) -> u32 {
    (0..10)
        .filter(|b| position >> b & 1 == 1)
        .map(|b| WEIGHTS[b])
        .sum()
}

fn sent_places(mode: Mode, len: usize, sent: usize) -> Vec<usize> {
    (0..sent)
        .map(|k| match mode {
            Mode::Repeat => place(len, k % len),
            Mode::Puncture => place(len, k + len - sent),
            Mode::Shorten => place(len, k),
        })
        .collect()
}

impl Plan {
    pub fn new(request: Request, check: &dyn Check) -> Result<Plan, Refusal> {
        let Request {
            n,
            payload,
            sent,
            low,
            parity,
        } = request;
        let within = (5..=10).contains(&n)
            && (1..=512.min(check.longest())).contains(&payload)
            && (1..=8192).contains(&sent)
            && low <= 1 << n
            && (parity == 0 || parity == 3)
            && check.bits() <= 24;
        if !within {
            return refuse("plan", 4, 0);
        }
        let len = 1 << n;
        let word = payload + check.bits();
        let mode = mode(len, word, sent);
        let sent = sent_places(mode, len, sent);
        let mut carried = vec![false; len];
        sent.iter().for_each(|&place| carried[place] = true);
        let mut free: Vec<usize> = (low..len).filter(|&i| carried[i]).collect();
        if free.len() < word + parity {
            return refuse("plan", 5, 0);
        }
        free.sort_by_cached_key(|&i| std::cmp::Reverse((weight(i), i)));
        let mut kinds = vec![Kind::Frozen; len];
        for (rank, &i) in free.iter().take(word + parity).enumerate() {
            kinds[i] = if rank < word {
                Kind::Information
            } else {
                Kind::Parity
            };
        }
        Ok(Plan {
            n,
            payload,
            check_bits: check.bits(),
            mode,
            sent,
            kinds,
        })
    }

    pub fn len(&self) -> usize {
        self.kinds.len()
    }

    /// K, the length of the word that the check makes of a payload.
    pub fn word(&self) -> usize {
        self.payload + self.check_bits
    }

    pub fn fits(&self, check: &dyn Check) -> bool {
        self.check_bits == check.bits() && self.payload <= check.longest()
    }

    /// The positions of one kind, ascending.
    pub fn positions(&self, kind: Kind) -> Vec<usize> {
        (0..self.len()).filter(|&i| self.kinds[i] == kind).collect()
    }

    pub fn unsent(&self) -> Vec<usize> {
        (0..self.len()).filter(|i| !self.sent.contains(i)).collect()
    }

    /// The bit that a parity position must carry, given the bits before it.
    pub fn parity_bit(&self, position: usize, before: &[u8]) -> u8 {
        (0..position)
            .filter(|&j| self.kinds[j] == Kind::Information && j % 5 == position % 5)
            .fold(0, |sum, j| sum ^ before[j])
    }

    /// The information bits on a path, ascending by position.
    pub fn information_bits(&self, path: &[u8]) -> Vec<u8> {
        let bits = path.iter().zip(&self.kinds);
        bits.filter(|(_, &kind)| kind == Kind::Information)
            .map(|(&bit, _)| bit)
            .collect()
    }
}
