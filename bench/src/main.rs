//! Times the search on a thousand blocks.

mod blocks;

use std::time::{Duration, Instant};

use twin::decoder::Met;
use twin::fast::{self, Search};
use twin::plan::Plan;
use twin::recover::recover;
use twin::{block, check};

/// How often everything is timed; the best time counts.
const ROUNDS: usize = 5;

/// A way from the bytes of a block file to the lines of polarwalk.
type Walk = fn(&[u8]) -> Vec<String>;

fn best_of(mut timed: impl FnMut() -> Duration) -> Duration {
    let rounds = (0..ROUNDS).map(|_| timed());
    rounds.min().expect("at least one round")
}

fn time_walks(files: &[Vec<u8>], walk: Walk) -> Duration {
    best_of(|| {
        let start = Instant::now();
        for file in files {
            std::hint::black_box(walk(file));
        }
        start.elapsed()
    })
}

/// The search alone: plan and LLRs are there, the first word is looked for.
fn time_searches(files: &[Vec<u8>]) -> Duration {
    let check = check::by_code(blocks::CHECK).expect("a listed code");
    let plan = Plan::new(blocks::REQUEST, &*check).expect("within limits");
    let llrs = files.iter().map(|file| {
        let mut llrs = vec![0; plan.len()];
        let values = block::read(file).expect("a whole file").values;
        recover(&plan, &values, &mut llrs).expect("within limits");
        llrs
    });
    let llrs: Vec<Vec<i32>> = llrs.collect();
    best_of(|| {
        let start = Instant::now();
        for llrs in &llrs {
            let mut search = Search::new(&plan, &*check, llrs, blocks::LIMITS);
            std::hint::black_box(search.advance());
        }
        start.elapsed()
    })
}

/// The steps that a block took, and whether a word was shown.
fn steps_of(lines: &[String]) -> (u64, Option<Met>) {
    let parts: Vec<&str> = lines[0].split(' ').collect();
    match parts[..] {
        ["word", _, _, _, steps, _] => (steps.parse().expect("a number"), Some(Met::Shown)),
        [_, _, _, steps] => (steps.parse().expect("a number"), None),
        _ => panic!("{}", lines[0]),
    }
}

fn print(name: &str, time: Duration, steps: u64) {
    let per_step = time.as_nanos() as f64 / steps as f64;
    println!(
        "{name:30} {:8.1} ms {per_step:8.1} ns a step",
        time.as_secs_f64() * 1e3
    );
}

fn main() {
    let files: Vec<Vec<u8>> = (0..blocks::COUNT).map(blocks::block_file).collect();
    let ends: Vec<(u64, Option<Met>)> = files
        .iter()
        .map(|file| steps_of(&fast::lines(file)))
        .collect();
    let steps = ends.iter().map(|end| end.0).sum();
    let words = ends.iter().filter(|end| end.1.is_some()).count();
    println!("{} blocks, {words} words, {steps} steps", files.len());
    print("twin, search alone", time_searches(&files), steps);
    print(
        "twin, file to lines",
        time_walks(&files, fast::lines),
        steps,
    );
}

#[cfg(test)]
mod tests {
    use super::{blocks, fast};
    use twin::walk;

    /// By hand: x starts at 0 and goes to 1,013,904,223, whose top six bits are 15: noise −17, value 3.
    #[test]
    fn first_value_of_the_first_block() {
        let bytes = blocks::block_file(0);
        assert_eq!(bytes.len(), 27 + 2048);
        assert_eq!(bytes[27..29], [0, 3]);
    }

    #[test]
    fn fast_and_plain_search_answer_alike_on_timed_blocks() {
        for number in (0..blocks::COUNT).step_by(50) {
            let bytes = blocks::block_file(number);
            assert_eq!(fast::lines(&bytes), walk::lines(&bytes));
        }
    }
}
