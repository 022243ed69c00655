//! The blocks that are timed.

use twin::block::{self, Block};
use twin::decoder::Limits;
use twin::plan::Request;

pub const COUNT: u32 = 1000;

pub const REQUEST: Request = Request {
    n: 10,
    payload: 100,
    sent: 1024,
    low: 0,
    parity: 0,
};

pub const CHECK: u8 = 11;

pub const LIMITS: Limits = Limits {
    capacity: 32,
    failures: 64,
    steps: 65_536,
};

/// Noise from −32 to 31: the top six bits of x, less 32, where x goes to 1,664,525 x + 1,013,904,223 modulo 2^32
/// before each use.
struct Noise(u32);

impl Noise {
    fn next(&mut self) -> i32 {
        self.0 = self.0.wrapping_mul(1_664_525).wrapping_add(1_013_904_223);
        (self.0 >> 26) as i32 - 32
    }
}

/// Block `number` as a file. The payload is all zeros, so every sent bit is 0 and every value 20 and noise; the
/// noise starts from x = number.
pub fn block_file(number: u32) -> Vec<u8> {
    let mut noise = Noise(number);
    block::write(&Block {
        request: REQUEST,
        check: CHECK,
        limits: LIMITS,
        store: 0,
        words: 1,
        values: (0..REQUEST.sent).map(|_| 20 + noise.next()).collect(),
    })
}
