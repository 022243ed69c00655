//! polarwalk: from the bytes of a block file to output lines.

use crate::block::{self, Block};
use crate::check;
use crate::decoder::{Decoder, Met, Report};
use crate::plan::Plan;
use crate::recover::recover;
use crate::refusal::Refusal;
use crate::store;

pub fn lines(bytes: &[u8]) -> Vec<String> {
    let mut out = Vec::new();
    if let Err(refusal) = walk(bytes, &mut out) {
        out.push(refusal.to_string());
    }
    out
}

/// Bytes in lower-case hex.
pub fn hex(bytes: &[u8]) -> String {
    bytes.iter().map(|b| format!("{b:02x}")).collect()
}

/// The bytes of a line of hex, two digits each; absent where the line is anything else.
pub fn unhex(line: &str) -> Option<Vec<u8>> {
    let digit = |c: u8| match c {
        b'0'..=b'9' => Some(c - b'0'),
        b'a'..=b'f' => Some(c - b'a' + 10),
        _ => None,
    };
    if line.len() % 2 == 1 {
        return None;
    }
    let pairs = line.as_bytes().chunks(2);
    pairs
        .map(|pair| Some(digit(pair[0])? << 4 | digit(pair[1])?))
        .collect()
}

/// For each line of hex its number, from 1, and then the lines of that block file.
pub fn all_lines(input: &[String]) -> Vec<String> {
    let mut out = Vec::new();
    for (index, line) in input.iter().enumerate() {
        out.push(format!("block {}", index + 1));
        match unhex(line) {
            Some(bytes) => out.extend(lines(&bytes)),
            None => out.push("malformed".to_string()),
        }
    }
    out
}

/// A number that may be absent, as text.
pub fn shown(number: Option<u32>) -> String {
    number.map_or("-".to_string(), |n| n.to_string())
}

fn tail(report: &Report) -> String {
    format!(
        "{} {} {}",
        shown(report.floor),
        shown(report.bound),
        report.steps
    )
}

/// The plan of a block file that has been read.
pub fn plan_of(block: &Block) -> Result<Plan, Refusal> {
    let check = check::by_code(block.check).expect("reading lets listed codes through only");
    Plan::new(block.request, &*check)
}

/// A decoder with the block loaded, or the first refusal on the way.
fn open(bytes: &[u8]) -> Result<(Block, Plan, Decoder), Refusal> {
    let block = block::read(bytes)?;
    let plan = plan_of(&block)?;
    let mut llrs = vec![0; plan.len()];
    recover(&plan, &block.values, &mut llrs)?;
    let check = check::by_code(block.check).expect("reading lets listed codes through only");
    let store = store::by_code(block.store).expect("reading lets listed codes through only");
    let mut decoder = Decoder::new(store, check);
    decoder.load(&plan, &llrs, block.limits)?;
    Ok((block, plan, decoder))
}

fn payload_of(decoder: &Decoder, plan: &Plan) -> Result<Vec<u8>, Refusal> {
    let mut payload = vec![0; plan.payload];
    decoder.word(&mut payload)?;
    Ok(payload)
}

/// Bits as digits.
pub fn digits(bits: &[u8]) -> String {
    bits.iter().map(|bit| bit.to_string()).collect()
}

/// What is printed for what an advance met; nothing for a pause.
pub fn line(met: Met, report: &Report, payload: Option<Vec<u8>>) -> String {
    let tail = tail(report);
    match met {
        Met::Paused => String::new(),
        Met::NoneLeft => format!("none {tail}"),
        Met::GivenUp => format!("quit {tail}"),
        Met::Shown => {
            let bits = digits(&payload.unwrap_or_default());
            format!("word {} {tail} {bits}", shown(report.metric))
        }
    }
}

fn walk(bytes: &[u8], out: &mut Vec<String>) -> Result<(), Refusal> {
    let (block, plan, mut decoder) = open(bytes)?;
    let mut scratch = vec![0; 2 * plan.len()];
    while out.len() < block.words as usize {
        let (met, report) = decoder.advance(65536, &mut scratch)?;
        match met {
            Met::Paused => {}
            Met::NoneLeft | Met::GivenUp => {
                out.push(line(met, &report, None));
                break;
            }
            Met::Shown => {
                let payload = payload_of(&decoder, &plan)?;
                out.push(line(met, &report, Some(payload)));
                decoder.strike()?;
            }
        }
    }
    Ok(())
}

/// One line for each step: what was met, the report, and what the store then keeps.
pub fn trace(bytes: &[u8]) -> Result<Vec<String>, Refusal> {
    let (block, plan, mut decoder) = open(bytes)?;
    let mut scratch = vec![0; 2 * plan.len()];
    let mut out = Vec::new();
    let mut left = block.words;
    while left > 0 {
        let (met, report) = decoder.advance(1, &mut scratch)?;
        let kept = decoder.store.kept();
        let kept = kept
            .iter()
            .map(|c| format!(" {}/{}/{}", c.metric, c.length, c.serial));
        let failures = report.failures;
        out.push(format!(
            "{met:?} {} {failures}:{}",
            tail(&report),
            kept.collect::<String>()
        ));
        match met {
            Met::Paused => {}
            Met::NoneLeft | Met::GivenUp => break,
            Met::Shown => {
                out.push(format!("word {}", digits(&payload_of(&decoder, &plan)?)));
                decoder.strike()?;
                left -= 1;
            }
        }
    }
    Ok(out)
}
