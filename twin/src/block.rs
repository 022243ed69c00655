//! The block file: reading with its order of examination, and writing.

use crate::check;
use crate::decoder::Limits;
use crate::plan::Request;
use crate::refusal::{refuse, Refusal};
use crate::store;

#[derive(Clone, PartialEq, Eq, Debug)]
pub struct Block {
    pub request: Request,
    pub check: u8,
    pub limits: Limits,
    pub store: u8,
    pub words: u8,
    pub values: Vec<i32>,
}

fn number(bytes: &[u8]) -> usize {
    bytes.iter().fold(0, |sum, &b| sum << 8 | b as usize)
}

/// The body of the field that is due at `at`.
fn field(bytes: &[u8], at: usize, tag: u8, length: usize) -> Result<&[u8], Refusal> {
    match &bytes[at..] {
        [] => refuse("file", 2, at),
        [_] | [_, _] => refuse("file", 1, at),
        [found, ..] if *found != tag => refuse("file", 2, at),
        [_, high, low, ..] if number(&[*high, *low]) != length => refuse("file", 3, at),
        [_, _, _, rest @ ..] if rest.len() < length => refuse("file", 1, at),
        [_, _, _, rest @ ..] => Ok(&rest[..length]),
    }
}

pub fn read(bytes: &[u8]) -> Result<Block, Refusal> {
    let first = field(bytes, 0, 1, 9)?;
    if check::by_code(first[8]).is_none() {
        return refuse("file", 3, 0);
    }
    let second = field(bytes, 12, 2, 9)?;
    if store::by_code(second[1]).is_none() || second[8] == 0 {
        return refuse("file", 3, 12);
    }
    let sent = number(&first[3..5]);
    let third = field(bytes, 24, 3, 2 * sent)?;
    if bytes.len() > 27 + 2 * sent {
        return refuse("file", 2, 27 + 2 * sent);
    }
    Ok(Block {
        request: Request {
            n: first[0] as u32,
            payload: number(&first[1..3]),
            sent,
            low: number(&first[5..7]),
            parity: first[7] as usize,
        },
        check: first[8],
        limits: Limits {
            capacity: second[0] as usize,
            failures: number(&second[2..4]) as u32,
            steps: number(&second[4..8]) as u32,
        },
        store: second[1],
        words: second[8],
        values: third
            .chunks(2)
            .map(|v| i16::from_be_bytes([v[0], v[1]]) as i32)
            .collect(),
    })
}

/// The bytes of a block whose numbers have room in their fields.
pub fn write(block: &Block) -> Vec<u8> {
    let Request {
        n,
        payload,
        sent,
        low,
        parity,
    } = block.request;
    let Limits {
        capacity,
        failures,
        steps,
    } = block.limits;
    let mut out = vec![1, 0, 9, n as u8];
    for wide in [payload, sent, low] {
        out.extend((wide as u16).to_be_bytes());
    }
    out.extend([parity as u8, block.check]);
    out.extend([2, 0, 9, capacity as u8, block.store]);
    out.extend((failures as u16).to_be_bytes());
    out.extend(steps.to_be_bytes());
    out.extend([block.words, 3]);
    out.extend((2 * block.values.len() as u16).to_be_bytes());
    for &value in &block.values {
        out.extend((value as i16).to_be_bytes());
    }
    out
}
