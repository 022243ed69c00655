//! Scripts of calls: one call of a decoder a line, and what is printed for it.

use crate::check;
use crate::decoder::{Decoder, Limits, Met, Phase, Report};
use crate::plan::{Plan, Request};
use crate::refusal::Refusal;
use crate::store::{self, Candidate, Store};
use crate::walk::{digits, shown};

/// The longest scratch or output that a script can hand over.
const LONGEST: u32 = 4096;

/// One line of a script, read.
enum Line {
    New(Box<dyn Store>, Box<dyn check::Check>),
    Load(Result<Plan, Refusal>, Vec<i32>, Limits),
    Advance(u32, usize),
    Strike,
    Word(usize),
    Report,
}

/// Digits alone; a number as wide as the caller's type.
fn number<T: TryFrom<u64>>(text: &str) -> Option<T> {
    let digits = !text.is_empty() && text.bytes().all(|b| b.is_ascii_digit());
    T::try_from(text.parse().ok().filter(|_| digits)?).ok()
}

fn length(text: &str) -> Option<usize> {
    number::<u32>(text)
        .filter(|&n| n <= LONGEST)
        .map(|n| n as usize)
}

fn candidate(text: &str) -> Option<Candidate> {
    let [metric, length, serial, row] = text.split(':').collect::<Vec<_>>()[..] else {
        return None;
    };
    Some(Candidate {
        metric: number(metric)?,
        length: number::<u16>(length)? as usize,
        serial: number(serial)?,
        row: number::<u8>(row)? as usize,
    })
}

fn store_of(name: &str, used: &[&str]) -> Option<Box<dyn Store>> {
    let mut store = store::by_code(["table", "heap"].iter().position(|n| *n == name)? as u8)?;
    if let [capacity, candidates @ ..] = used {
        store.empty(number::<u8>(capacity)? as usize);
        for text in candidates {
            store.put(candidate(text)?);
        }
    }
    Some(store)
}

fn signed(text: &str) -> Option<i32> {
    let (sign, digits) = match text.strip_prefix('-') {
        Some(digits) => (-1, digits),
        None => (1, text),
    };
    i32::try_from(sign * number::<u32>(digits)? as i64).ok()
}

/// LLRs as words: `V`, or `VxCOUNT` for COUNT of them.
fn llrs(words: &[&str]) -> Option<Vec<i32>> {
    let mut out = Vec::new();
    for word in words {
        let (value, count) = word.split_once('x').unwrap_or((word, "1"));
        out.resize(out.len() + length(count)?, signed(value)?);
    }
    Some(out)
}

fn load(words: &[&str]) -> Option<Line> {
    let [code, n, payload, sent, low, parity, capacity, failures, steps, rest @ ..] = words else {
        return None;
    };
    let check = check::by_code(number(code)?)?;
    let request = Request {
        n: number::<u8>(n)? as u32,
        payload: number::<u16>(payload)? as usize,
        sent: number::<u16>(sent)? as usize,
        low: number::<u16>(low)? as usize,
        parity: number::<u8>(parity)? as usize,
    };
    let limits = Limits {
        capacity: number::<u8>(capacity)? as usize,
        failures: number::<u16>(failures)? as u32,
        steps: number(steps)?,
    };
    Some(Line::Load(Plan::new(request, &*check), llrs(rest)?, limits))
}

fn read(line: &str) -> Option<Line> {
    Some(match line.split(' ').collect::<Vec<_>>()[..] {
        ["new", name, code, ref used @ ..] => {
            Line::New(store_of(name, used)?, check::by_code(number(code)?)?)
        }
        ["load", ref words @ ..] => load(words)?,
        ["advance", b, scratch] => Line::Advance(number(b)?, length(scratch)?),
        ["strike"] => Line::Strike,
        ["word", out] => Line::Word(length(out)?),
        ["report"] => Line::Report,
        _ => return None,
    })
}

fn figures(report: Report) -> String {
    let [metric, floor, bound] = [report.metric, report.floor, report.bound].map(shown);
    format!(
        "{metric} {floor} {bound} {} {}",
        report.steps, report.failures
    )
}

fn reported(report: Report) -> String {
    format!("report {}", figures(report))
}

fn advanced((met, report): (Met, Report)) -> String {
    let name = match met {
        Met::Shown => "shown",
        Met::NoneLeft => "none",
        Met::GivenUp => "quit",
        Met::Paused => "paused",
    };
    format!("{name} {}", figures(report))
}

fn word(decoder: &Decoder, length: usize) -> Result<String, Refusal> {
    let mut out = vec![0; length];
    decoder.word(&mut out)?;
    Ok(format!("payload {}", digits(&out)))
}

/// Plays scripts line by line.
#[derive(Default)]
pub struct Player {
    decoder: Option<Decoder>,
    scripts: usize,
}

impl Player {
    /// What is printed for a line.
    pub fn play(&mut self, line: &str) -> Vec<String> {
        let malformed = || vec!["malformed".to_string()];
        let Some(line) = read(line) else {
            return malformed();
        };
        if let Line::New(store, check) = line {
            self.decoder = Some(Decoder::new(store, check));
            self.scripts += 1;
            return vec![format!("script {}", self.scripts)];
        }
        let Some(decoder) = &mut self.decoder else {
            return malformed();
        };
        let answer = match line {
            Line::New(..) => unreachable!("answered above"),
            // no plan, no call
            Line::Load(Err(refusal), ..) => return vec![refusal.to_string()],
            Line::Load(Ok(plan), llrs, limits) => decoder.load(&plan, &llrs, limits).map(reported),
            Line::Advance(b, scratch) => decoder.advance(b, &mut vec![7; scratch]).map(advanced),
            Line::Strike => decoder.strike().map(reported),
            Line::Word(length) => word(decoder, length),
            Line::Report => decoder.report().map(reported),
        };
        let mut lines = vec![answer.unwrap_or_else(|refusal| refusal.to_string())];
        lines.extend(self.kept());
        lines
    }

    pub fn phase(&self) -> Phase {
        self.decoder.as_ref().map_or(Phase::Blank, |d| d.phase)
    }

    /// The kept list as a line, once a block was loaded.
    fn kept(&self) -> Option<String> {
        let each = |(c, path): (Candidate, &[u8])| {
            format!(" {}:{}:{}:{}", c.metric, c.length, c.serial, digits(path))
        };
        let kept = self.decoder.as_ref()?.kept()?;
        Some(format!(
            "kept{}",
            kept.into_iter().map(each).collect::<String>()
        ))
    }
}

#[cfg(test)]
mod tests {
    use super::Player;

    fn played(lines: &[&str]) -> Vec<String> {
        let mut player = Player::default();
        lines.iter().flat_map(|line| player.play(line)).collect()
    }

    /// The worked search of the rules with a store of two, call by call.
    #[test]
    fn worked_search_as_a_script() {
        let zeros = "0".repeat(31);
        let printed = played(&[
            "new heap 0 3 5:3:1:0 5:4:2:1",
            "report",
            "load 0 5 4 32 0 0 2 1 4096 10x32",
            "advance 32 64",
            "word 4",
            "advance 1 64",
            "word 4",
            "word 3",
            "strike",
        ]);
        let first = [
            "script 1",
            "fault report 11 0",
            "report - - 0 0 0",
            "kept 0:0:0:",
        ];
        assert_eq!(printed[..4], first);
        let kept_160 = format!("160:31:34:{}1", &zeros[..30]);
        let then = [
            "paused - 160 0 32 0".to_string(),
            format!("kept 0:32:35:0{zeros} {kept_160}"),
            "fault word 11 0".to_string(),
            format!("kept 0:32:35:0{zeros} {kept_160}"),
            "shown 0 160 160 33 0".to_string(),
            format!("kept {kept_160}"),
            "payload 0000".to_string(),
            format!("kept {kept_160}"),
            "fault word 13 0".to_string(),
            format!("kept {kept_160}"),
            "report - 160 160 33 0".to_string(),
            format!("kept {kept_160}"),
        ];
        assert_eq!(printed[4..], then);
    }

    #[test]
    fn lines_that_are_no_calls() {
        let printed = played(&[
            "report",
            "new table 5",
            "new table 0",
            "load 0 5 4 32 0 1 2 1 4096 10x32",
            "load 0 5 4 32 0 0 2 1 4096 10x",
            "load 0 5 4 32 0 0 256 1 4096 10x32",
            "advance 1 5000",
            "advance +1 64",
            "word",
            "",
            "load 0 5 4 32 0 0 8 1 4096 10x5 1048577 10x3 -1048577 10x22",
        ]);
        let expected = ["malformed", "malformed", "script 1", "fault plan 4 0"];
        assert_eq!(printed[..4], expected);
        assert_eq!(printed[4..10], ["malformed"; 6]);
        assert_eq!(printed[10..], ["fault load 10 5"]);
    }
}
