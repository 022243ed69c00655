//! Decision values by halving, and what a bit costs.

use crate::encode::transform;

pub fn f(a: i64, b: i64) -> i64 {
    a.signum() * b.signum() * a.abs().min(b.abs())
}

pub fn g(a: i64, b: i64, bit: u8) -> i64 {
    if bit == 0 {
        b + a
    } else {
        b - a
    }
}

/// The decision value at the position after `before`.
pub fn decision(values: &[i64], before: &[u8]) -> i64 {
    if values.len() == 1 {
        return values[0];
    }
    let half = values.len() / 2;
    let (left, right) = values.split_at(half);
    let pairs = left.iter().zip(right);
    if before.len() < half {
        let first: Vec<i64> = pairs.map(|(&a, &b)| f(a, b)).collect();
        decision(&first, before)
    } else {
        let sums = transform(&before[..half]);
        let second: Vec<i64> = pairs.zip(&sums).map(|((&a, &b), &u)| g(a, b, u)).collect();
        decision(&second, &before[half..])
    }
}

/// What a bit costs at a decision value; also what a code bit contradicts of an LLR.
pub fn bit_cost(value: i64, bit: u8) -> i64 {
    match bit {
        0 => (-value).max(0),
        _ => value.max(0),
    }
}
