//! Refusals: layer, number and position, as docs/REFUSALS.md lists them.

use std::fmt;

#[derive(Clone, Copy, PartialEq, Eq, Debug)]
pub struct Refusal {
    pub layer: &'static str,
    pub number: u8,
    pub position: usize,
}

pub fn refuse<T>(layer: &'static str, number: u8, position: usize) -> Result<T, Refusal> {
    Err(Refusal {
        layer,
        number,
        position,
    })
}

impl fmt::Display for Refusal {
    fn fmt(&self, f: &mut fmt::Formatter) -> fmt::Result {
        write!(f, "fault {} {} {}", self.layer, self.number, self.position)
    }
}
