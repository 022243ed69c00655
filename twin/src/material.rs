//! Blocks to try the codec on: encoded words with noise, and random files, damaged ones among them.

use crate::block::{self, Block};
use crate::check;
use crate::decoder::Limits;
use crate::encode::LaidWord;
use crate::plan::{Plan, Request};
use crate::recover::VALUE_LIMIT;
use crate::refusal::Refusal;

/// Pseudo-random numbers (splitmix64): the same everywhere for the same seed.
pub struct Random(pub u64);

impl Random {
    pub fn next(&mut self) -> u64 {
        self.0 = self.0.wrapping_add(0x9E37_79B9_7F4A_7C15);
        let mut z = self.0;
        z = (z ^ z >> 30).wrapping_mul(0xBF58_476D_1CE4_E5B9);
        z = (z ^ z >> 27).wrapping_mul(0x94D0_49BB_1331_11EB);
        z ^ z >> 31
    }
    /// low to high, both included.
    pub fn between(&mut self, low: i64, high: i64) -> i64 {
        low + (self.next() % (high - low + 1) as u64) as i64
    }
    pub fn one_in(&mut self, n: i64) -> bool {
        self.between(1, n) == 1
    }
    pub fn pick<T: Copy>(&mut self, from: &[T]) -> T {
        from[self.between(0, from.len() as i64 - 1) as usize]
    }
    pub fn bits(&mut self, count: usize) -> Vec<u8> {
        (0..count).map(|_| self.between(0, 1) as u8).collect()
    }
}

/// Changes to something that is made, each to be tried alone.
pub struct Changes<B>(pub Vec<Box<dyn Fn(&mut B)>>);

impl<B: 'static> Changes<B> {
    pub fn none() -> Changes<B> {
        Changes(Vec::new())
    }
    /// One change more for each value.
    pub fn each<T: Copy + 'static>(mut self, values: &[T], set: fn(&mut B, T)) -> Changes<B> {
        for &value in values {
            self.0.push(Box::new(move |made| set(made, value)));
        }
        self
    }
}

/// The E sent bits of a payload.
pub fn sent_bits(plan: &Plan, check: u8, payload: &[u8]) -> Result<Vec<u8>, Refusal> {
    let check = check::by_code(check).expect("a listed code");
    let mut word = LaidWord::fresh(plan);
    word.lay(&*check, payload)?;
    let mut sent = vec![0; plan.sent.len()];
    word.transform().send(&mut sent)?;
    Ok(sent)
}

/// ±level for each bit, moved by up to ±noise, held to the limits of received values.
pub fn receive(sent: &[u8], level: i64, noise: i64, random: &mut Random) -> Vec<i32> {
    let value = |&bit: &u8| {
        let clean = if bit == 0 { level } else { -level };
        let limit = VALUE_LIMIT as i64;
        (clean + random.between(-noise, noise)).clamp(-limit, limit) as i32
    };
    sent.iter().map(value).collect()
}

/// A request that mostly gives a plan.
fn request(random: &mut Random, check: u8) -> Request {
    let n = random.pick(&[5, 5, 5, 6, 6, 7, 8, 9, 10]);
    let len = 1i64 << n;
    let longest = match check {
        4 => 8,
        24 => 140,
        _ => 512,
    };
    let payload = random.between(1, longest.min(len / 2));
    let sent = match random.between(0, 3) {
        0 => random.between(len, 3 * len),
        1 => len,
        _ => random.between(len / 2, len - 1),
    };
    let low = if random.one_in(4) {
        random.between(0, len / 2)
    } else {
        0
    };
    Request {
        n,
        payload: payload as usize,
        sent: sent as usize,
        low: low as usize,
        parity: random.pick(&[0, 3]),
    }
}

fn limits(random: &mut Random) -> Limits {
    Limits {
        capacity: random.pick(&[2, 3, 4, 8, 16, 32, 64, 127, 128]),
        failures: random.pick(&[1, 1, 2, 5, 64]),
        steps: random.pick(&[1, 33, 65, 300, 1025, 2000, 5000, 20000]),
    }
}

/// Sometimes one number beyond its limits, or at them.
fn stretch(block: &mut Block, random: &mut Random) {
    let Block {
        request, limits, ..
    } = block;
    match random.between(0, 11) {
        0 => request.n = random.pick(&[0, 4, 11, 255]),
        1 => request.payload = random.pick(&[0, 9, 141, 512, 513, 65535]),
        2 => request.low = random.pick(&[31, 32, 33, 1024, 1025, 65535]),
        3 => request.parity = random.pick(&[1, 2, 4, 255]),
        4 => limits.capacity = random.pick(&[0, 1, 129, 255]),
        5 => limits.failures = random.pick(&[0, 64, 65, 65535]),
        6 => limits.steps = random.pick(&[0, (1 << 24) + 1, u32::MAX]),
        7 | 8 if !block.values.is_empty() => {
            let at = random.between(0, block.values.len() as i64 - 1) as usize;
            block.values[at] = random.pick(&[4095, 4096, -4095, -4096, 32767, -32768]);
        }
        _ => block.words = random.pick(&[0, 1, 255]),
    }
}

/// A cut, a longer tail or another byte somewhere.
pub fn damage(bytes: &mut Vec<u8>, random: &mut Random) {
    let at = random.between(0, bytes.len() as i64 - 1) as usize;
    match random.between(0, 3) {
        0 => bytes.truncate(at),
        1 => bytes.truncate(at.min(30)),
        2 => bytes.push(random.next() as u8),
        _ => {
            let early = at.min(random.between(0, 30) as usize);
            bytes[early] = random.pick(&[0, 1, 2, 3, 4, 6, 9, 11, 24, 255]);
        }
    }
}

fn received(block: &Block, random: &mut Random) -> Vec<i32> {
    let check = check::by_code(block.check).expect("a listed code");
    let sent = Plan::new(block.request, &*check).and_then(|plan| {
        let payload = random.bits(plan.payload);
        sent_bits(&plan, block.check, &payload)
    });
    let sent = sent.unwrap_or_else(|_| random.bits(block.request.sent));
    let noise = random.pick(&[0, 9, 12, 15, 20, 40, 4095]);
    receive(&sent, 10, noise, random)
}

/// One random block file.
pub fn block_file(random: &mut Random) -> Vec<u8> {
    let check = random.pick(&[0, 6, 11, 4, 24]);
    let mut block = Block {
        request: request(random, check),
        check,
        limits: limits(random),
        store: random.pick(&[0, 1]),
        words: random.pick(&[1, 1, 2, 3, 8]),
        values: Vec::new(),
    };
    block.values = received(&block, random);
    if random.one_in(6) {
        stretch(&mut block, random);
    }
    let mut bytes = block::write(&block);
    if random.one_in(8) {
        damage(&mut bytes, random);
    }
    bytes
}
