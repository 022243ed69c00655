//! What docs/RULES.md promises over runs, tried on small blocks against all lawful paths.

use crate::check::by_code;
use crate::cost::{bit_cost, decision};
use crate::decoder::{Decoder, Limits, Met, Phase, Report};
use crate::material::Random;
use crate::plan::{Kind, Plan, Request};
use crate::store;

/// A block with the cost of every lawful path, and of every admissible word by its payload.
struct Small {
    plan: Plan,
    llrs: Vec<i32>,
    lawful: Vec<u32>,
    admissible: Vec<(Vec<u8>, u32)>,
}

impl Small {
    fn random(random: &mut Random, code: u8, payload: usize) -> Small {
        let check = by_code(code).unwrap();
        let sent = random.between(20, 40) as usize;
        let request = Request {
            n: 5,
            payload,
            sent,
            low: 0,
            parity: 3,
        };
        let plan = Plan::new(request, &*check).unwrap();
        let llrs: Vec<i32> = (0..32).map(|_| random.between(-6, 12) as i32).collect();
        let wide: Vec<i64> = llrs.iter().map(|&v| v as i64).collect();
        let mut paths = vec![(Vec::new(), 0)];
        let mut lawful = vec![0];
        for i in 0..32 {
            paths = paths
                .iter()
                .flat_map(|path| children(&plan, &wide, i, path))
                .collect();
            lawful.extend(paths.iter().map(|path| path.1));
        }
        let words = paths
            .iter()
            .map(|(path, cost)| (plan.information_bits(path), *cost));
        let admissible = words
            .filter(|(bits, _)| check.accepts(payload, bits))
            .map(|(bits, cost)| (check.read(payload, &bits), cost))
            .collect();
        Small {
            plan,
            llrs,
            lawful,
            admissible,
        }
    }
}

fn children(plan: &Plan, llrs: &[i64], i: usize, path: &(Vec<u8>, u32)) -> Vec<(Vec<u8>, u32)> {
    let (bits, cost) = path;
    let value = decision(llrs, bits);
    let allowed = match plan.kinds[i] {
        Kind::Frozen => vec![0],
        Kind::Parity => vec![plan.parity_bit(i, bits)],
        Kind::Information => vec![0, 1],
    };
    let child = |bit: u8| {
        (
            [&bits[..], &[bit]].concat(),
            cost + bit_cost(value, bit) as u32,
        )
    };
    allowed.into_iter().map(child).collect()
}

/// A word with what was reported with it.
struct ShownWord {
    payload: Vec<u8>,
    report: Report,
}

fn assert_promises(block: &Small, shown: &[ShownWord], now: Report) {
    let unshown = |before: usize, payload: &Vec<u8>| {
        shown[..before].iter().all(|word| word.payload != *payload)
    };
    for (payload, cost) in &block.admissible {
        if unshown(shown.len(), payload) {
            assert!(now.bound.expect("a bound while something is left") <= *cost);
        }
    }
    for (place, word) in shown.iter().enumerate() {
        let metric = word.report.metric.unwrap();
        let admissible = (word.payload.clone(), metric);
        assert!(
            block.admissible.contains(&admissible),
            "admissible, at its cost"
        );
        assert!(unshown(place, &word.payload), "shown once");
        assert!(
            shown[..place]
                .iter()
                .all(|w| w.report.metric.unwrap() <= metric),
            "in order"
        );
        if word.report.floor.is_none_or(|floor| floor >= metric) {
            let mut rest = block
                .admissible
                .iter()
                .filter(|(payload, _)| unshown(place, payload));
            assert!(
                rest.all(|(_, cost)| *cost >= metric),
                "nothing cheaper hidden"
            );
        }
        let paths = block.lawful.iter().filter(|cost| **cost <= metric).count();
        assert!(word.report.steps as usize <= paths, "steps are bounded");
    }
}

/// A decoder, what it was loaded with, and what it has shown since.
struct Run<'b> {
    decoder: Decoder,
    block: Option<&'b Small>,
    shown: Vec<ShownWord>,
}

impl<'b> Run<'b> {
    fn load(&mut self, block: &'b Small, random: &mut Random) {
        let limits = Limits {
            capacity: random.between(1, 9) as usize,
            failures: random.between(1, 64) as u32,
            steps: random.between(100, 5000) as u32,
        };
        if self.decoder.load(&block.plan, &block.llrs, limits).is_ok() {
            self.block = Some(block);
            self.shown.clear();
        }
    }

    fn advance(&mut self, b: u32) {
        let Ok((Met::Shown, report)) = self.decoder.advance(b, &mut [7; 64]) else {
            return;
        };
        let mut payload = vec![0; self.block.unwrap().plan.payload];
        self.decoder.word(&mut payload).unwrap();
        self.shown.push(ShownWord { payload, report });
    }

    fn check(&self) {
        let Some(block) = self.block else {
            return assert_eq!(self.decoder.phase, Phase::Blank);
        };
        assert_promises(block, &self.shown, self.decoder.report().unwrap());
    }
}

#[test]
fn promises_hold_after_every_call() {
    let mut random = Random(31);
    for (code, payload) in [(0, 5), (6, 2), (4, 3), (4, 5), (0, 7)] {
        for store in [0, 1, 0, 1] {
            let blocks = [0; 2].map(|_| Small::random(&mut random, code, payload));
            let decoder = Decoder::new(store::by_code(store).unwrap(), by_code(code).unwrap());
            let mut run = Run {
                decoder,
                block: None,
                shown: Vec::new(),
            };
            for _ in 0..150 {
                match random.between(0, 40) {
                    0 => run.load(&blocks[0], &mut random),
                    1 => run.load(&blocks[1], &mut random),
                    2..=20 => drop(run.decoder.strike()),
                    _ => run.advance(random.between(0, 200) as u32),
                }
                run.check();
            }
        }
    }
}
