//! Outer checks: none, trailing and spread.

/// What the search and the encoder ask of a check. `payload` is the payload's length in bits.
pub trait Check {
    fn bits(&self) -> usize;
    fn longest(&self) -> usize;
    fn finish(&self, payload: &[u8]) -> Vec<u8>;
    fn accepts(&self, payload: usize, word: &[u8]) -> bool;
    fn hopeless(&self, payload: usize, beginning: &[u8]) -> bool;
    /// Whether any beginning can be hopeless.
    fn watches(&self) -> bool {
        false
    }
    fn read(&self, payload: usize, word: &[u8]) -> Vec<u8>;
}

/// The check behind a code of the block file.
pub fn by_code(code: u8) -> Option<Box<dyn Check>> {
    Some(match code {
        0 => Box::new(NoCheck),
        6 => Box::new(Trailing {
            divisor: &[6, 5, 0],
        }),
        11 => Box::new(Trailing {
            divisor: &[11, 10, 9, 5, 0],
        }),
        4 => Box::new(Spread::new(&[4, 2, 0], 8)),
        24 => Box::new(Spread::new(
            &[24, 23, 21, 20, 17, 15, 13, 12, 8, 4, 2, 1, 0],
            140,
        )),
        _ => return None,
    })
}

/// The remainder of bits × D^L, highest power first; the divisor is given by its powers, L first.
pub fn remainder(bits: &[u8], divisor: &[usize]) -> Vec<u8> {
    let degree = divisor[0];
    let mut row = bits.to_vec();
    row.resize(bits.len() + degree, 0);
    for i in 0..bits.len() {
        if row[i] == 1 {
            for power in divisor {
                row[i + degree - power] ^= 1;
            }
        }
    }
    row.split_off(bits.len())
}

pub struct NoCheck;

impl Check for NoCheck {
    fn bits(&self) -> usize {
        0
    }
    fn longest(&self) -> usize {
        512
    }
    fn finish(&self, payload: &[u8]) -> Vec<u8> {
        payload.to_vec()
    }
    fn accepts(&self, _: usize, _: &[u8]) -> bool {
        true
    }
    fn hopeless(&self, _: usize, _: &[u8]) -> bool {
        false
    }
    fn read(&self, _: usize, word: &[u8]) -> Vec<u8> {
        word.to_vec()
    }
}

pub struct Trailing {
    pub divisor: &'static [usize],
}

impl Check for Trailing {
    fn bits(&self) -> usize {
        self.divisor[0]
    }
    fn longest(&self) -> usize {
        512
    }
    fn finish(&self, payload: &[u8]) -> Vec<u8> {
        [payload, &remainder(payload, self.divisor)].concat()
    }
    fn accepts(&self, payload: usize, word: &[u8]) -> bool {
        remainder(&word[..payload], self.divisor) == word[payload..]
    }
    fn hopeless(&self, _: usize, _: &[u8]) -> bool {
        false
    }
    fn read(&self, payload: usize, word: &[u8]) -> Vec<u8> {
        word[..payload].to_vec()
    }
}

/// What stands at one place of a spread word.
#[derive(Clone, Copy, PartialEq, Eq, Debug)]
pub enum Slot {
    Payload(usize),
    Check(usize),
}

pub struct Spread {
    divisor: &'static [usize],
    longest: usize,
    /// The order for the longest payload.
    longest_order: Vec<Slot>,
}

impl Spread {
    pub fn new(divisor: &'static [usize], longest: usize) -> Spread {
        // the remainder of each payload bit alone: which check bits it enters
        let enters: Vec<Vec<u8>> = (0..longest)
            .map(|i| {
                let mut alone = vec![0; longest];
                alone[i] = 1;
                remainder(&alone, divisor)
            })
            .collect();
        let mut longest_order = Vec::new();
        for c in 0..divisor[0] {
            for i in (0..longest).filter(|&i| enters[i][c] == 1) {
                if !longest_order.contains(&Slot::Payload(i)) {
                    longest_order.push(Slot::Payload(i));
                }
            }
            longest_order.push(Slot::Check(c));
        }
        Spread {
            divisor,
            longest,
            longest_order,
        }
    }

    pub fn order(&self, payload: usize) -> Vec<Slot> {
        let struck = self.longest - payload;
        let keep = |&slot: &Slot| match slot {
            Slot::Payload(i) => i.checked_sub(struck).map(Slot::Payload),
            check => Some(check),
        };
        self.longest_order.iter().filter_map(keep).collect()
    }
}

impl Check for Spread {
    fn bits(&self) -> usize {
        self.divisor[0]
    }
    fn longest(&self) -> usize {
        self.longest
    }
    fn finish(&self, payload: &[u8]) -> Vec<u8> {
        let checks = remainder(payload, self.divisor);
        let bit = |slot| match slot {
            Slot::Payload(i) => payload[i],
            Slot::Check(c) => checks[c],
        };
        self.order(payload.len()).into_iter().map(bit).collect()
    }
    fn accepts(&self, payload: usize, word: &[u8]) -> bool {
        self.finish(&self.read(payload, word)) == word
    }
    fn watches(&self) -> bool {
        true
    }
    // A check bit stands after all that enter it, so payload bits not read yet may count as 0.
    fn hopeless(&self, payload: usize, beginning: &[u8]) -> bool {
        let order = self.order(payload);
        let checks = remainder(&self.read(payload, beginning), self.divisor);
        let disagrees = |(slot, bit): (&Slot, &u8)| match slot {
            Slot::Check(c) => checks[*c] != *bit,
            Slot::Payload(_) => false,
        };
        order.iter().zip(beginning).any(disagrees)
    }
    fn read(&self, payload: usize, word: &[u8]) -> Vec<u8> {
        let mut bits = vec![0; payload];
        for (slot, &bit) in self.order(payload).iter().zip(word) {
            if let Slot::Payload(i) = slot {
                bits[*i] = bit;
            }
        }
        bits
    }
}
