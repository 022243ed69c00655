//! The stored scripts: calls of decoders in every phase, in and out of limits, the same ones each time.

use crate::check;
use crate::decoder::{Limits, Phase};
use crate::material::{receive, sent_bits, Changes, Random};
use crate::plan::{Plan, Request};
use crate::recover::{recover, LLR_LIMIT};
use crate::script::Player;
use crate::stored_walks::CHECKS;

const STORES: [&str; 2] = ["table", "heap"];

/// All lines, script after script.
pub fn lines() -> Vec<String> {
    let mut writer = Writer {
        random: Random(129),
        player: Player::default(),
        lines: Vec::new(),
        loaded: (32, 4),
    };
    writer.no_script();
    for store in STORES {
        for check in CHECKS {
            writer.phases(store, check);
            writer.loads(store, check);
            writer.single_steps(store, check, 2);
            writer.single_steps(store, check, 6);
        }
    }
    for _ in 0..320 {
        writer.any_calls();
    }
    writer.lines
}

/// What a load line is made of.
struct Load {
    check: u8,
    request: Request,
    limits: Limits,
    llrs: Vec<i32>,
}

impl Load {
    /// The line, with runs of equal LLRs taken together.
    fn text(&self) -> String {
        let Request {
            n,
            payload,
            sent,
            low,
            parity,
        } = self.request;
        let Limits {
            capacity,
            failures,
            steps,
        } = self.limits;
        let check = self.check;
        let mut line = format!(
            "load {check} {n} {payload} {sent} {low} {parity} {capacity} {failures} {steps}"
        );
        for run in self.llrs.chunk_by(|a, b| a == b) {
            line += &match run.len() {
                1 => format!(" {}", run[0]),
                count => format!(" {}x{count}", run[0]),
            };
        }
        line
    }
}

/// Limits, lengths, plans and checks that do not fit; the first six are one of each kind.
fn limit_changes(changes: Changes<Load>) -> Changes<Load> {
    changes
        .each(&[1], |l, capacity| l.limits.capacity = capacity)
        .each(&[31], |l, count| l.llrs.truncate(count))
        .each(&[6], |l, at| l.llrs[at] = LLR_LIMIT + 1)
        .each(&[()], |l, _| l.check = if l.check == 11 { 6 } else { 11 })
        .each(&[2], |l, parity| l.request.parity = parity)
        .each(&[31], |l, low| l.request.low = low)
        .each(&[0, 129, 255], |l, capacity| l.limits.capacity = capacity)
        .each(&[0, 65, 65535], |l, failures| l.limits.failures = failures)
        .each(&[0, (1 << 24) + 1, u32::MAX], |l, steps| {
            l.limits.steps = steps
        })
        .each(&[0, 1, 33, 64], |l, count| l.llrs.resize(count, 10))
        .each(&[4, 11, 255], |l, n| l.request.n = n)
        .each(&[0, 9, 141, 513], |l, payload| l.request.payload = payload)
        .each(&[0, 8193, 3], |l, sent| l.request.sent = sent)
        .each(&[33], |l, low| {
            (l.request.low, l.limits.capacity) = (low, 1)
        })
}

/// Bad LLRs: the first of them counts; beside anything else that is wrong none does.
fn value_changes(changes: Changes<Load>) -> Changes<Load> {
    let bad = [
        (0, LLR_LIMIT + 1),
        (31, -LLR_LIMIT - 1),
        (17, i32::MAX),
        (8, i32::MIN),
    ];
    let more: [fn(&mut Load); 6] = [
        |l| l.llrs[9] = -LLR_LIMIT - 1,
        |l| l.limits.capacity = 1,
        |l| l.limits.failures = 0,
        |l| l.limits.steps = 0,
        |l| l.llrs.push(0),
        |l| l.check = if l.check == 0 { 6 } else { 0 },
    ];
    changes
        .each(&bad, |l, (at, value)| l.llrs[at] = value)
        .each(&more, |l, also| {
            l.llrs[5] = LLR_LIMIT + 1;
            also(l);
        })
}

/// Calls but for loads, with arguments in and out of limits for N = 32 and A = 4.
const CALLS: [&str; 10] = [
    "report",
    "strike",
    "word 4",
    "word 5",
    "advance 0 0",
    "advance 0 64",
    "advance 65537 64",
    "advance 4294967295 64",
    "advance 1 63",
    "advance 1 0",
];

/// Writes scripts and plays them along, so as to know the phase.
struct Writer {
    random: Random,
    player: Player,
    lines: Vec<String>,
    /// N and A of the block that was loaded last.
    loaded: (usize, usize),
}

impl Writer {
    fn say(&mut self, line: impl Into<String>) {
        let line = line.into();
        self.player.play(&line);
        self.lines.push(line);
    }

    fn say_all(&mut self, lines: &[&str]) {
        lines.iter().for_each(|line| self.say(*line));
    }

    fn say_load(&mut self, load: &Load) {
        let printed = self.player.play(&load.text());
        self.lines.push(load.text());
        if printed[0].starts_with("report") {
            self.loaded = (1 << load.request.n, load.request.payload);
        }
    }

    /// Lines that are no calls: before the first script, and within one.
    fn no_script(&mut self) {
        self.say_all(&["report", "advance 1 64", "new", "new stack 0"]);
        self.say_all(&["new table 5", "new heap", "new table 0"]);
        self.say_all(&["", "word", "advance 1", "advance -1 64", "strike 1"]);
        self.say_all(&["Report", "load 0 5 4", "load 0 5 4 32 0 0 8 1 4096 10x32"]);
        self.say_all(&["word x", "advance 4294967296 64", "new table 5", "report "]);
        self.say_all(&["advance 33 64", "report"]);
    }

    /// Encoded LLRs with noise, small random ones, extreme ones, or all the same.
    fn llrs(&mut self, plan: &Plan, check: u8) -> Vec<i32> {
        let len = plan.len();
        let random = &mut self.random;
        match random.between(0, 9) {
            0 => (0..len).map(|_| random.between(-3, 5) as i32).collect(),
            1 => (0..len)
                .map(|_| random.pick(&[LLR_LIMIT, -LLR_LIMIT, 0]))
                .collect(),
            2 => vec![random.pick(&[10, -1, 0, LLR_LIMIT, -LLR_LIMIT]); len],
            _ => {
                let payload = random.bits(plan.payload);
                let sent = sent_bits(plan, check, &payload).expect("laid words are sent");
                let noise = random.pick(&[0, 9, 12, 15, 20, 40]);
                let mut llrs = vec![0; len];
                recover(plan, &receive(&sent, 10, noise, random), &mut llrs)
                    .expect("within limits");
                llrs
            }
        }
    }

    /// A load that is granted over this check.
    fn good_load(&mut self, check: u8, n: u32) -> Load {
        let judge = check::by_code(check).expect("a listed code");
        let len = 1i64 << n;
        loop {
            let random = &mut self.random;
            let longest = (judge.longest() as i64).min(len / 2);
            let request = Request {
                n,
                payload: random.between(1, longest) as usize,
                sent: random.between(len / 2, 3 * len / 2) as usize,
                low: random.pick(&[0, 0, 0, len / 4]) as usize,
                parity: random.pick(&[0, 3]),
            };
            let Ok(plan) = Plan::new(request, &*judge) else {
                continue;
            };
            let limits = Limits {
                capacity: random.pick(if n == 5 {
                    &[2, 2, 3, 4, 6, 9, 30][..]
                } else {
                    &[2, 3, 4]
                }),
                failures: random.pick(&[1, 2, 3, 64, 64]),
                steps: random.pick(&[7, 33, 65, 500, 3000, 3000, 3000]),
            };
            let llrs = self.llrs(&plan, check);
            return Load {
                check,
                request,
                limits,
                llrs,
            };
        }
    }

    /// A small block that is searched for long: all payload lengths fit 4 bits.
    fn small_load(&mut self, check: u8, capacity: usize) -> Load {
        let mut load = self.good_load(check, 5);
        load.request = Request {
            n: 5,
            payload: 4,
            sent: 32,
            low: 0,
            parity: if check == 6 { 3 } else { 0 },
        };
        let judge = check::by_code(check).expect("a listed code");
        let plan = Plan::new(load.request, &*judge).expect("28 of 32 at most");
        let payload = self.random.bits(4);
        let sent = sent_bits(&plan, check, &payload).expect("laid words are sent");
        load.llrs = vec![0; 32];
        let values = receive(&sent, 10, 13, &mut self.random);
        recover(&plan, &values, &mut load.llrs).expect("within limits");
        load.limits = Limits {
            capacity,
            failures: 3,
            steps: 4096,
        };
        load
    }

    /// Every call in every phase, with arguments in and out of limits.
    fn phases(&mut self, store: &str, check: u8) {
        let load = self.small_load(check, 4);
        self.say(format!("new {store} {check}"));
        self.say_all(&CALLS); // blank
        self.say("advance 1 64");
        self.say_load(&load);
        self.say_all(&CALLS); // searching
        self.say_all(&["advance 1 64", "advance 2 65", "advance 65536 64"]);
        self.say_all(&CALLS); // shown, unless the noise has hidden the word
        self.say_all(&["strike", "strike", "word 4", "report"]);
        self.say_all(&["advance 65536 4096", "word 4"]);
        let mut short = self.small_load(check, 3);
        short.limits.steps = 20;
        self.say_load(&short);
        self.say_all(&["advance 20 64", "advance 1 64"]);
        self.say_all(&CALLS); // ended
        self.say("advance 1 64");
        short.limits.capacity = 1;
        self.say_load(&short);
        self.say("report");
        self.say_load(&load);
        self.say("report");
    }

    /// Loads in and out of limits, from each phase on.
    fn loads(&mut self, store: &str, check: u8) {
        self.say(format!("new {store} {check} 5 7:3:9:2 4:1:2:1 9:9:4:0"));
        let load = self.small_load(check, 3);
        let bad = self.bad_loads(check);
        bad.iter().for_each(|load| self.say_load(load));
        self.say_load(&load);
        self.say("advance 3 64");
        bad[..6].iter().for_each(|load| self.say_load(load));
        self.say("advance 65536 64");
        bad[..6].iter().for_each(|load| self.say_load(load));
        self.say("report");
        for capacity in [2, 128] {
            for (failures, steps) in [(1, 1), (64, 1 << 24)] {
                let mut edge = self.small_load(check, capacity);
                edge.limits.failures = failures;
                edge.limits.steps = steps;
                self.say_load(&edge);
                self.say("advance 40 64");
            }
        }
    }

    fn bad_loads(&mut self, check: u8) -> Vec<Load> {
        let changes = value_changes(limit_changes(Changes::none()));
        let altered = changes.0.iter().map(|change| {
            let mut load = self.small_load(check, 4);
            change(&mut load);
            load
        });
        altered.collect()
    }

    /// A search step by step, every kept list on the way.
    fn single_steps(&mut self, store: &str, check: u8, capacity: usize) {
        let load = self.small_load(check, capacity);
        self.say(format!("new {store} {check}"));
        self.say_load(&load);
        let mut calls = 0;
        while calls < 60 && self.player.phase() != Phase::Ended {
            calls += 1;
            match self.player.phase() {
                Phase::Shown { .. } => self.say("strike"),
                _ => self.say("advance 1 64"),
            }
        }
    }

    /// A start over a fresh store, or over one that keeps something already.
    fn start(&mut self, check: u8) {
        let random = &mut self.random;
        let mut line = format!("new {} {check}", random.pick(&STORES));
        if random.one_in(3) {
            line += &format!(" {}", random.pick(&[0, 2, 3, 128, 255]));
            for serial in 0..random.between(0, 5) {
                let metric = random.between(0, 900);
                line += &format!(
                    " {metric}:{}:{serial}:{}",
                    random.between(0, 32),
                    random.between(0, 128)
                );
            }
        }
        self.say(line);
    }

    /// A script of random calls, most of them allowed in their phase.
    fn any_calls(&mut self) {
        let check = self.random.pick(&CHECKS);
        let n = self.random.pick(&[5, 5, 5, 5, 5, 5, 6, 6, 6, 7, 8, 9, 10]);
        self.start(check);
        let calls = if n < 8 { self.random.between(7, 14) } else { 7 };
        for _ in 0..calls {
            if self.random.one_in(7) {
                self.any_call(check, n);
                continue;
            }
            match self.player.phase() {
                Phase::Blank => self.load_line(check, n),
                Phase::Searching => self.advance_line(),
                Phase::Shown { .. } if self.random.one_in(2) => self.word_line(),
                Phase::Shown { .. } => self.say("strike"),
                Phase::Ended => self.any_call(check, n),
            }
        }
    }

    fn any_call(&mut self, check: u8, n: u32) {
        match self.random.between(0, 5) {
            0 | 1 => self.load_line(check, n),
            2 => self.advance_line(),
            3 => self.word_line(),
            4 => self.say("strike"),
            _ => self.say("report"),
        }
    }

    /// Mostly a load that is granted; sometimes a block of another length than the others.
    fn load_line(&mut self, check: u8, n: u32) {
        let n = if self.random.one_in(5) {
            11 - n.min(6)
        } else {
            n
        };
        let mut load = self.good_load(check, n);
        if self.random.one_in(5) {
            let mut bad = self.bad_loads(check);
            let at = self.random.between(0, bad.len() as i64 - 1) as usize;
            load = bad.swap_remove(at);
        }
        self.say_load(&load);
    }

    fn advance_line(&mut self) {
        let (len, _) = self.loaded;
        let random = &mut self.random;
        let b = if random.one_in(12) {
            random.pick(&[0, 65537, usize::pow(2, 32) - 1])
        } else {
            random.pick(&[1, 2, 3, 7, 20, len / 2, len, len + 1, 200, 65536])
        };
        let scratch = if random.one_in(12) {
            random.pick(&[0, 1, len, 2 * len - 1])
        } else {
            random.pick(&[2 * len, 2 * len, 2 * len + 1, 4096])
        };
        self.say(format!("advance {b} {scratch}"));
    }

    fn word_line(&mut self) {
        let (_, payload) = self.loaded;
        let other = self.random.pick(&[0, payload - 1, payload + 1, 512]);
        let length = if self.random.one_in(4) {
            other
        } else {
            payload
        };
        self.say(format!("word {length}"));
    }
}
