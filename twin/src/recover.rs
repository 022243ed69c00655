//! Recovery: LLRs by place from received values.

use crate::plan::{Mode, Plan};
use crate::refusal::{refuse, Refusal};

pub const VALUE_LIMIT: i32 = 4095;
pub const LLR_LIMIT: i32 = 1 << 20;

pub fn recover(plan: &Plan, values: &[i32], llrs: &mut [i32]) -> Result<(), Refusal> {
    if values.len() != plan.sent.len() || llrs.len() != plan.len() {
        return refuse("recovery", 7, 0);
    }
    if let Some(at) = values.iter().position(|v| v.abs() > VALUE_LIMIT) {
        return refuse("recovery", 9, at);
    }
    llrs.fill(0);
    if plan.mode == Mode::Shorten {
        for place in plan.unsent() {
            llrs[place] = LLR_LIMIT;
        }
    }
    for (&value, &place) in values.iter().zip(&plan.sent) {
        llrs[place] += value;
    }
    Ok(())
}
