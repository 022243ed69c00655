//! The stored walks: block files that meet every rule of the walk, the same ones each time.

use std::collections::BTreeMap;

use crate::block::{self, Block};
use crate::check::{self, Check};
use crate::decoder::Limits;
use crate::fast;
use crate::material::{damage, receive, sent_bits, Changes, Random};
use crate::plan::{Mode, Plan, Request};
use crate::recover::VALUE_LIMIT;
use crate::walk;

pub const CHECKS: [u8; 5] = [0, 6, 11, 4, 24];
const MODES: [Mode; 3] = [Mode::Repeat, Mode::Puncture, Mode::Shorten];
/// How far a value may be from ±10: no wrong sign up to 9, hopeless from about 40 on.
const NOISES: [i64; 7] = [0, 9, 12, 15, 20, 40, 4095];

/// All block files.
pub fn blocks() -> Vec<Vec<u8>> {
    let random = &mut Random(38212);
    [
        every_mode(random),
        edges(random),
        numbers(random),
        many_words(random),
        many_steps(random),
        damaged(random),
        mixed(random),
        all_against_zero(),
    ]
    .concat()
}

/// The lines of the stored input: the block files in hex, and a few lines that are not hex.
pub fn lines(blocks: &[Vec<u8>]) -> Vec<String> {
    let mut out: Vec<String> = blocks.iter().map(|bytes| walk::hex(bytes)).collect();
    let malformed = ["0", "0g", "01 00", "0100090", "FF", "-1", "0x01", " "];
    out.extend(malformed.map(str::to_string));
    out
}

/// How many blocks end in which line, and the steps that they take at each length.
pub fn summary(blocks: &[Vec<u8>]) -> String {
    let mut ends = BTreeMap::new();
    let mut steps: BTreeMap<u8, u64> = BTreeMap::new();
    for bytes in blocks {
        let lines = fast::lines(bytes);
        let last = lines.last().expect("every block prints a line");
        let parts: Vec<&str> = last.split(' ').collect();
        let (end, made) = match parts[..] {
            ["word", _, _, _, made, _] => ("word".to_string(), made),
            [end @ ("none" | "quit"), _, _, made] => (end.to_string(), made),
            [_, layer, number, _] => (format!("fault {layer} {number}"), "0"),
            _ => unreachable!("{last}"),
        };
        *ends.entry(end).or_insert(0) += 1;
        *steps.entry(*bytes.get(3).unwrap_or(&0)).or_default() += made.parse::<u64>().unwrap();
    }
    format!("{} blocks {ends:?}\nsteps by n {steps:?}", blocks.len())
}

fn check_of(code: u8) -> Box<dyn Check> {
    check::by_code(code).expect("a listed code")
}

fn plan_of(request: Request, code: u8) -> Option<Plan> {
    Plan::new(request, &*check_of(code)).ok()
}

/// Limits under which the search ends soon, more so for long blocks.
fn limits(random: &mut Random, n: u32) -> Limits {
    let most = [4000, 3000, 2000, 1500, 1500, 2200][n as usize - 5];
    let len = 1 << n;
    Limits {
        capacity: random.pick(&[2, 2, 3, 4, 5, 8, 8, 16, 31, 32, 64, 100, 127, 128]),
        failures: random.pick(&[1, 1, 2, 3, 8, 64]),
        steps: random.pick(&[
            most,
            most,
            most,
            most,
            most,
            most,
            most / 2,
            len,
            len + 1,
            len + 2,
            40,
            1,
        ]),
    }
}

/// A word under the request with noise; random values where there is no such word.
fn noisy(random: &mut Random, request: Request, check: u8, noise: i64) -> Block {
    let payload = random.bits(request.payload);
    let sent = plan_of(request, check).map(|plan| sent_bits(&plan, check, &payload).unwrap());
    let sent = sent.unwrap_or_else(|| random.bits(request.sent));
    Block {
        request,
        check,
        limits: limits(random, request.n.clamp(5, 10)),
        store: random.pick(&[0, 1]),
        words: random.pick(&[1, 1, 1, 2, 3, 9]),
        values: receive(&sent, 10, noise, random),
    }
}

/// A request with a plan in this mode, if one is found.
fn in_mode(random: &mut Random, n: u32, check: u8, parity: usize, mode: Mode) -> Option<Request> {
    let len = 1 << n;
    let longest = check_of(check).longest().min(3 * len / 4) as i64;
    for _ in 0..300 {
        let sent = match mode {
            Mode::Repeat if n < 8 => random.between(len as i64, 2 * len as i64),
            Mode::Repeat => random.between(len as i64, 9 * len as i64 / 8),
            _ => random.between(len as i64 / 4, len as i64 - 1),
        };
        let barred = random.one_in(4);
        let request = Request {
            n,
            payload: random.between(1, longest) as usize,
            sent: sent as usize,
            low: if barred {
                random.between(1, len as i64 / 2) as usize
            } else {
                0
            },
            parity,
        };
        if plan_of(request, check).is_some_and(|plan| plan.mode == mode) {
            return Some(request);
        }
    }
    None
}

/// Every n, mode, check, store, p and noise together; of the long blocks one of several.
fn every_mode(random: &mut Random) -> Vec<Vec<u8>> {
    let mut out = Vec::new();
    for (n, one_of) in [(5, 1), (6, 1), (7, 1), (8, 3), (9, 7), (10, 11)] {
        let mut turn = 0;
        for (mode, check, parity) in combinations() {
            for (store, noise) in [0, 1]
                .iter()
                .flat_map(|s| NOISES[..6].iter().map(move |w| (*s, *w)))
            {
                turn += 1;
                if turn % one_of != 0 {
                    continue;
                }
                let Some(request) = in_mode(random, n, check, parity, mode) else {
                    continue;
                };
                let block = noisy(random, request, check, noise);
                out.push(block::write(&Block { store, ..block }));
            }
        }
    }
    out
}

fn combinations() -> Vec<(Mode, u8, usize)> {
    let mut out = Vec::new();
    for mode in MODES {
        for check in CHECKS {
            out.extend([0, 3].map(|parity| (mode, check, parity)));
        }
    }
    out
}

/// Requests at the limits of their mode and of the room for K + p positions, and just beyond.
fn edge_requests(random: &mut Random, n: u32, check: u8, parity: usize) -> Vec<Request> {
    let len: usize = 1 << n;
    let check_bits = check_of(check).bits();
    let room = len - check_bits - parity;
    let payload = random.between(1, room.min(check_of(check).longest()) as i64) as usize;
    let word = payload + check_bits;
    let at = |sent: usize, low: usize| Request {
        n,
        payload,
        sent,
        low,
        parity,
    };
    let least_punctured = (16 * word).div_ceil(7);
    let mut out = vec![
        at(len - 1, 0),
        at(len, 0),
        at(len + 1, 0),
        at(word + parity, 0),
        at(word + parity - 1, 0),
        at(least_punctured, 0),
        at(least_punctured - 1, 0),
    ];
    for sent in [len, len - 1, len - len / 8] {
        let most = (0..=len)
            .rev()
            .find(|&low| plan_of(at(sent, low), check).is_some());
        out.extend(
            most.iter()
                .flat_map(|&low| [at(sent, low), at(sent, low + 1)]),
        );
    }
    out.extend([at(len, len), at(len, len + 1)]);
    out
}

fn edges(random: &mut Random) -> Vec<Vec<u8>> {
    let mut out = Vec::new();
    for n in [5, 5, 6, 7] {
        for check in CHECKS {
            for parity in [0, 3] {
                for request in edge_requests(random, n, check, parity) {
                    let noise = random.pick(&NOISES);
                    out.push(block::write(&noisy(random, request, check, noise)));
                }
            }
        }
    }
    out
}

/// A small block: 16 words, all values ±10.
fn small(random: &mut Random) -> Block {
    let request = Request {
        n: 5,
        payload: 4,
        sent: 32,
        low: 0,
        parity: 0,
    };
    let mut block = noisy(random, request, 0, 0);
    block.limits = Limits {
        capacity: 8,
        failures: 1,
        steps: 4096,
    };
    block
}

/// Each number of the file at its limits and beyond them.
fn numbers(random: &mut Random) -> Vec<Vec<u8>> {
    let changes = value_numbers(search_numbers(plan_numbers(Changes::none())));
    let altered = changes.0.iter().map(|change| {
        let mut block = small(random);
        change(&mut block);
        block.values.resize(block.request.sent, 10);
        block::write(&block)
    });
    altered.collect()
}

fn plan_numbers(changes: Changes<Block>) -> Changes<Block> {
    let n = [0, 1, 4, 5, 6, 10, 11, 12, 63, 64, 255];
    let payload = [0, 1, 32, 33, 511, 512, 513, 65535];
    // a check and the longest payload that it or the block has room for, and one more
    let short = [(4, 8), (24, 8), (6, 26), (11, 21)];
    let long = [(24, 140), (0, 512), (6, 512), (11, 512)];
    let sent = [0, 1, 3, 4, 5, 31, 33, 63, 64, 65, 8192, 8193];
    let low = [0, 1, 27, 28, 29, 31, 32, 33, 1024, 65535];
    let parity = [0, 1, 2, 3, 4, 5, 255];
    changes
        .each(&n, |b, n| b.request.n = n)
        .each(&payload, |b, payload| b.request.payload = payload)
        .each(&short, |b, most| (b.check, b.request.payload) = most)
        .each(&short, |b, (check, most)| {
            (b.check, b.request.payload) = (check, most + 1)
        })
        .each(&long, |b, most| {
            (b.request.n, b.request.sent, b.limits.steps) = (10, 1024, 1100);
            (b.check, b.request.payload) = most
        })
        .each(&long, |b, (check, most)| {
            (b.request.n, b.request.sent) = (10, 1024);
            (b.check, b.request.payload) = (check, most + 1)
        })
        .each(&sent, |b, sent| b.request.sent = sent)
        .each(&low, |b, low| b.request.low = low)
        .each(&parity, |b, parity| b.request.parity = parity)
}

fn search_numbers(changes: Changes<Block>) -> Changes<Block> {
    let capacity = [0, 1, 2, 3, 127, 128, 129, 130, 255];
    let failures = [0, 1, 64, 65, 255, 256, 65535];
    let steps = [0, 1, 32, 33, 34, 1 << 24, (1 << 24) + 1, 1 << 25, u32::MAX];
    changes
        .each(&capacity, |b, capacity| {
            (b.limits.capacity, b.words) = (capacity, 20)
        })
        .each(&failures, |b, failures| b.limits.failures = failures)
        .each(&steps, |b, steps| b.limits.steps = steps)
        .each(&[0, 1, 15, 16, 17, 255], |b, words| b.words = words)
}

/// The first bad value is named; the plan comes before recovery, and recovery before the load.
fn value_numbers(changes: Changes<Block>) -> Changes<Block> {
    let values = [4094, 4095, 4096, 4097, 32767, -4095, -4096, -32768];
    changes
        .each(&values, |b, value| b.values[0] = value)
        .each(&values, |b, value| b.values[1] = value)
        .each(&values, |b, value| b.values[31] = value)
        .each(&values, |b, value| b.values[9..12].fill(value))
        .each(&values, |b, value| {
            (b.values[5], b.limits.capacity) = (value, 0)
        })
        .each(&values, |b, value| (b.values[5], b.request.n) = (value, 11))
}

/// Walks that print many words, and those that run out of words.
fn many_words(random: &mut Random) -> Vec<Vec<u8>> {
    let mut out = Vec::new();
    for (check, payload) in [(0, 3), (0, 5), (0, 7), (4, 4), (6, 4), (24, 2)] {
        for (capacity, store) in [(2, 0), (9, 1), (64, 0), (128, 1)] {
            let request = Request {
                n: 5,
                payload,
                sent: random.between(30, 40) as usize,
                low: 0,
                parity: random.pick(&[0, 3]),
            };
            let noise = random.pick(&[0, 9, 15]);
            let mut block = noisy(random, request, check, noise);
            block.limits = Limits {
                capacity,
                failures: 64,
                steps: 1 << 24,
            };
            (block.store, block.words) = (store, random.pick(&[20, 255]));
            out.push(block::write(&block));
        }
    }
    out
}

/// Searches that go on after a pause of 65,536 steps.
fn many_steps(random: &mut Random) -> Vec<Vec<u8>> {
    let mut out = Vec::new();
    for (steps, store) in [(65535, 0), (65536, 1), (65537, 0), (70000, 1)] {
        let request = Request {
            n: 8,
            payload: 120,
            sent: 256,
            low: 0,
            parity: 0,
        };
        let mut block = noisy(random, request, 24, 4095);
        block.limits = Limits {
            capacity: 128,
            failures: 64,
            steps,
        };
        block.store = store;
        out.push(block::write(&block));
    }
    out
}

/// Long shortened blocks whose values all speak for 1 at full strength.
fn all_against_zero() -> Vec<Vec<u8>> {
    let mut out = Vec::new();
    for (n, payload, sent) in [
        (9, 230, 511),
        (9, 240, 500),
        (10, 460, 1023),
        (10, 500, 1000),
    ] {
        for (less, store) in [(40, 0), (1, 1), (0, 0)] {
            let request = Request {
                n,
                payload,
                sent,
                low: 0,
                parity: 3,
            };
            let limits = Limits {
                capacity: 4,
                failures: 1,
                steps: (1 << n) - less,
            };
            out.push(block::write(&Block {
                request,
                check: 0,
                limits,
                store,
                words: 1,
                values: vec![-VALUE_LIMIT; sent],
            }));
        }
    }
    out
}

/// Changes that each damage a block file in one way.
fn single_damages() -> Vec<(usize, u8)> {
    let mut out = Vec::new();
    for (at, right) in [(0, 1), (12, 2), (24, 3)] {
        let wrong = [0, 1, 2, 3, 4, 7, 128, 255];
        out.extend(
            wrong
                .iter()
                .filter(|&&tag| tag != right)
                .map(|&tag| (at, tag)),
        );
        out.extend([0, 1, 8, 10, 15, 17, 255].map(|low| (at + 2, low)));
        out.extend([1, 2, 255].map(|high| (at + 1, high)));
    }
    out.extend([1, 2, 3, 5, 7, 10, 12, 23, 25, 128, 255].map(|check| (11, check)));
    out.extend([2, 3, 16, 128, 255].map(|store| (16, store)));
    out.extend([(23, 0), (7, 0), (7, 9), (7, 7), (6, 1), (6, 128), (6, 255)]);
    out
}

/// A block file of 43 bytes.
fn short(random: &mut Random) -> Vec<u8> {
    let request = Request {
        n: 5,
        payload: 3,
        sent: 8,
        low: 0,
        parity: 0,
    };
    block::write(&noisy(random, request, 0, 9))
}

/// Files that are cut, carry more, or have other tags, lengths and codes; alone and two at a time.
fn damaged(random: &mut Random) -> Vec<Vec<u8>> {
    let whole = short(random);
    let mut out: Vec<Vec<u8>> = (0..whole.len())
        .map(|count| whole[..count].to_vec())
        .collect();
    for tail in [&[0][..], &[1], &[3, 0], &[255; 3], &[1, 0, 9], &[0; 40]] {
        out.push([&whole[..], tail].concat());
    }
    let damages = single_damages();
    for &(at, byte) in &damages {
        let mut bytes = short(random);
        bytes[at] = byte;
        out.push(bytes);
    }
    for _ in 0..120 {
        let mut bytes = short(random);
        for _ in 0..2 {
            let (at, byte) = random.pick(&damages);
            bytes[at] = byte;
        }
        if random.one_in(3) {
            bytes.truncate(random.between(3, 42) as usize);
        }
        out.push(bytes);
    }
    out
}

/// Small blocks of all kinds, one in eight damaged anywhere.
fn mixed(random: &mut Random) -> Vec<Vec<u8>> {
    let mut out = Vec::new();
    while out.len() < 600 {
        let n = random.pick(&[5, 5, 5, 5, 6, 6, 7]);
        let (mode, check, parity) = random.pick(&combinations());
        let Some(request) = in_mode(random, n, check, parity, mode) else {
            continue;
        };
        let noise = random.pick(&NOISES);
        let mut bytes = block::write(&noisy(random, request, check, noise));
        if random.one_in(8) {
            damage(&mut bytes, random);
        }
        out.push(bytes);
    }
    out
}
