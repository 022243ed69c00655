//! Numbers from the public standard (3GPP TS 38.212) and the public literature on this code.

use crate::check::{remainder, Slot, Spread};
use crate::encode::{transform, LaidWord};
use crate::plan::{place, weight, Kind, Plan, Request};

fn bits(text: &str) -> Vec<u8> {
    text.bytes().map(|b| b - b'0').collect()
}

fn alone(len: usize, at: usize) -> Vec<u8> {
    (0..len).map(|i| (i == at) as u8).collect()
}

fn text(bits: &[u8]) -> String {
    bits.iter().map(|b| b.to_string()).collect()
}

/// The sub-block interleaver pattern of the standard.
#[rustfmt::skip]
const SUB_BLOCK_PATTERN: [usize; 32] = [
    0, 1, 2, 4, 3, 5, 6, 7, 8, 16, 9, 17, 10, 18, 11, 19,
    12, 20, 13, 21, 14, 22, 15, 23, 24, 25, 26, 28, 27, 29, 30, 31,
];

/// The input-bit interleaving pattern of the standard for 140 payload bits and the check of 24 bits: 0 to 139 are
/// payload bits, 140 to 163 check bits.
#[rustfmt::skip]
const INTERLEAVER: [usize; 164] = [
    0, 2, 4, 7, 9, 14, 19, 20, 24, 25, 26, 28, 31, 34, 42, 45, 49, 50, 51, 53,
    54, 56, 58, 59, 61, 62, 65, 66, 67, 69, 70, 71, 72, 76, 77, 81, 82, 83, 87, 88,
    89, 91, 93, 95, 98, 101, 104, 106, 108, 110, 111, 113, 115, 118, 119, 120, 122, 123, 126, 127,
    129, 132, 134, 138, 139, 140, 1, 3, 5, 8, 10, 15, 21, 27, 29, 32, 35, 43, 46, 52,
    55, 57, 60, 63, 68, 73, 78, 84, 90, 92, 94, 96, 99, 102, 105, 107, 109, 112, 114, 116,
    121, 124, 128, 130, 133, 135, 141, 6, 11, 16, 22, 30, 33, 36, 44, 47, 64, 74, 79, 85,
    97, 100, 103, 117, 125, 131, 136, 142, 12, 17, 23, 37, 48, 75, 80, 86, 137, 143, 13, 18,
    38, 144, 39, 145, 40, 146, 41, 147, 148, 149, 150, 151, 152, 153, 154, 155, 156, 157, 158, 159,
    160, 161, 162, 163,
];

#[test]
fn sub_block_interleaver_of_the_standard() {
    let order: Vec<usize> = (0..32).map(|k| place(32, k)).collect();
    assert_eq!(order, SUB_BLOCK_PATTERN);
    // longer blocks: whole runs in the same order
    for len in [64, 128, 256, 512, 1024] {
        let run = len / 32;
        let whole_runs = SUB_BLOCK_PATTERN
            .iter()
            .flat_map(|p| p * run..(p + 1) * run);
        assert!(whole_runs.eq((0..len).map(|k| place(len, k))));
    }
}

#[test]
fn input_bit_interleaver_of_the_standard() {
    let spread = Spread::new(&[24, 23, 21, 20, 17, 15, 13, 12, 8, 4, 2, 1, 0], 140);
    let index = |slot: Slot| match slot {
        Slot::Payload(i) => i,
        Slot::Check(c) => 140 + c,
    };
    let order: Vec<usize> = spread.order(140).into_iter().map(index).collect();
    assert_eq!(order, INTERLEAVER);
}

/// The standard's rule for fewer payload bits: entries below 140 − A fall out, the others are lowered by 140 − A.
#[test]
fn input_bit_interleaver_for_fewer_payload_bits() {
    let spread = Spread::new(&[24, 23, 21, 20, 17, 15, 13, 12, 8, 4, 2, 1, 0], 140);
    for payload in [1, 12, 64, 139] {
        let lowered = INTERLEAVER
            .iter()
            .filter_map(|m| m.checked_sub(140 - payload));
        let index = |slot: Slot| match slot {
            Slot::Payload(i) => i,
            Slot::Check(c) => payload + c,
        };
        assert!(lowered.eq(spread.order(payload).into_iter().map(index)));
    }
}

#[test]
fn generator_rows_at_4() {
    let rows: Vec<String> = (0..4).map(|i| text(&transform(&alone(4, i)))).collect();
    assert_eq!(rows, ["1000", "1100", "1010", "1111"]);
}

/// Information 0, 1, 0, 0 at positions 3, 5, 6, 7.
#[test]
fn codeword_at_8() {
    assert_eq!(text(&transform(&bits("00000100"))), "11001100");
}

/// Rows 5 and 10 have weights 4 and 4, their sum has weight 6: why parity at a spacing of 5 helps.
#[test]
fn rows_five_apart_at_16() {
    let five = transform(&alone(16, 5));
    let ten = transform(&alone(16, 10));
    let both = transform(&bits("0000010000100000"));
    assert_eq!(text(&five), "1100110000000000");
    assert_eq!(text(&ten), "1010000010100000");
    assert_eq!(text(&both), "0110110010100000");
    assert!(five.iter().zip(&ten).map(|(a, b)| a ^ b).eq(both));
}

/// Parity over a spacing of 5: at position i the sum of the information bits before it at i − 5, i − 10, …
#[test]
fn parity_over_a_spacing_of_five() {
    let request = Request {
        n: 6,
        payload: 20,
        sent: 64,
        low: 0,
        parity: 3,
    };
    let none = crate::check::by_code(0).unwrap();
    let plan = Plan::new(request, &*none).unwrap();
    let information = plan.positions(Kind::Information);
    for (k, &j) in information.iter().enumerate() {
        let mut word = LaidWord::fresh(&plan);
        word.lay(&*none, &alone(20, k)).unwrap();
        for i in plan.positions(Kind::Parity) {
            assert_eq!(word.bits[i], (j < i && (i - j) % 5 == 0) as u8);
        }
    }
}

#[test]
fn check_rows_of_the_distributed_check_over_8() {
    let rows: Vec<String> = (0..8)
        .map(|i| text(&remainder(&alone(8, i), &[4, 2, 0])))
        .collect();
    let published = [
        "1010", "0101", "1000", "0100", "0010", "0001", "1010", "0101",
    ];
    assert_eq!(rows, published);
    let entering = |c: usize| {
        (0..8)
            .filter(|&i| rows[i].as_bytes()[c] == b'1')
            .collect::<Vec<usize>>()
    };
    let sets = [0, 1, 2, 3].map(entering);
    assert_eq!(sets, [[0, 2, 6], [1, 3, 7], [0, 4, 6], [1, 5, 7]]);
}

#[test]
fn order_of_the_distributed_check_over_8_and_7() {
    let spread = Spread::new(&[4, 2, 0], 8);
    let name = |slot: Slot| match slot {
        Slot::Payload(i) => i.to_string(),
        Slot::Check(c) => format!("c{c}"),
    };
    let order = |payload| {
        spread
            .order(payload)
            .into_iter()
            .map(name)
            .collect::<Vec<_>>()
            .join(" ")
    };
    assert_eq!(order(8), "0 2 6 c0 1 3 7 c1 4 c2 5 c3");
    assert_eq!(order(7), "1 5 c0 0 2 6 c1 3 c2 4 c3");
}

#[test]
fn order_of_reliability_at_32() {
    let mut positions: Vec<usize> = (0..32).collect();
    positions.sort_by_key(|&i| (weight(i), i));
    #[rustfmt::skip]
    let published = [
        0, 1, 2, 4, 8, 16, 3, 5, 6, 9, 10, 17, 12, 18, 20, 7,
        24, 11, 13, 19, 14, 21, 22, 25, 26, 28, 15, 23, 27, 29, 30, 31,
    ];
    assert_eq!(positions, published);
}
