//! The encoder: laid word, transform, coded word, sending.

use crate::check::Check;
use crate::plan::{Kind, Mode, Plan};
use crate::refusal::{refuse, Refusal};

/// Bits before the transform. Transforming consumes it.
pub struct LaidWord<'p> {
    plan: &'p Plan,
    pub bits: Vec<u8>,
}

/// Bits after the transform.
pub struct CodedWord<'p> {
    plan: &'p Plan,
    pub bits: Vec<u8>,
}

/// Code bit i is the sum modulo 2 of all bits at j with i AND j = i, built up digit by digit.
pub fn transform(bits: &[u8]) -> Vec<u8> {
    let mut code = bits.to_vec();
    let mut digit = 1;
    while digit < code.len() {
        for i in (0..code.len()).filter(|i| i & digit == 0) {
            code[i] ^= code[i + digit];
        }
        digit *= 2;
    }
    code
}

impl<'p> LaidWord<'p> {
    pub fn fresh(plan: &'p Plan) -> Self {
        LaidWord {
            plan,
            bits: vec![0; plan.len()],
        }
    }

    pub fn lay(&mut self, check: &dyn Check, payload: &[u8]) -> Result<(), Refusal> {
        if !self.plan.fits(check) || payload.len() != self.plan.payload {
            return refuse("laying", 6, 0);
        }
        if let Some(at) = payload.iter().position(|&b| b > 1) {
            return refuse("laying", 6, at);
        }
        let mut word = check.finish(payload).into_iter();
        for i in 0..self.plan.len() {
            self.bits[i] = match self.plan.kinds[i] {
                Kind::Frozen => 0,
                Kind::Parity => self.plan.parity_bit(i, &self.bits),
                Kind::Information => word.next().expect("one word bit for each position"),
            };
        }
        Ok(())
    }

    pub fn transform(self) -> CodedWord<'p> {
        CodedWord {
            plan: self.plan,
            bits: transform(&self.bits),
        }
    }
}

impl CodedWord<'_> {
    pub fn send(&self, out: &mut [u8]) -> Result<(), Refusal> {
        if out.len() != self.plan.sent.len() {
            return refuse("sending", 7, 0);
        }
        if self.plan.mode == Mode::Shorten {
            if let Some(&at) = self.plan.unsent().iter().find(|&&i| self.bits[i] == 1) {
                return refuse("sending", 8, at);
            }
        }
        for (slot, &place) in out.iter_mut().zip(&self.plan.sent) {
            *slot = self.bits[place];
        }
        Ok(())
    }
}
