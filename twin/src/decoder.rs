//! The decoder: phases, load, advance, strike, word and report.

use crate::check::Check;
use crate::cost::{bit_cost, decision};
use crate::plan::{Kind, Plan};
use crate::recover::LLR_LIMIT;
use crate::refusal::{refuse, Refusal};
use crate::store::{lesser, Candidate, Store};

const ROWS: usize = 129;

#[derive(Clone, Copy, PartialEq, Eq, Debug)]
pub enum Phase {
    Blank,
    Searching,
    Shown { metric: u32, row: usize },
    Ended,
}

#[derive(Clone, Copy, PartialEq, Eq, Debug)]
pub enum Met {
    Shown,
    NoneLeft,
    GivenUp,
    Paused,
}

#[derive(Clone, Copy, PartialEq, Eq, Debug)]
pub struct Report {
    pub metric: Option<u32>,
    pub floor: Option<u32>,
    pub bound: Option<u32>,
    pub steps: u32,
    pub failures: u32,
}

#[derive(Clone, Copy, PartialEq, Eq, Debug)]
pub struct Limits {
    pub capacity: usize,
    pub failures: u32,
    pub steps: u32,
}

impl Limits {
    pub fn are_lawful(&self) -> bool {
        (2..=128).contains(&self.capacity)
            && (1..=64).contains(&self.failures)
            && (1..=1 << 24).contains(&self.steps)
    }
}

struct Block {
    plan: Plan,
    llrs: Vec<i64>,
    limits: Limits,
}

pub struct Decoder {
    pub store: Box<dyn Store>,
    check: Box<dyn Check>,
    block: Option<Block>,
    rows: Vec<Vec<u8>>,
    pub phase: Phase,
    steps: u32,
    failures: u32,
    serial: u32,
}

impl Decoder {
    pub fn new(store: Box<dyn Store>, check: Box<dyn Check>) -> Decoder {
        Decoder {
            store,
            check,
            block: None,
            rows: vec![Vec::new(); ROWS],
            phase: Phase::Blank,
            steps: 0,
            failures: 0,
            serial: 0,
        }
    }

    pub fn load(&mut self, plan: &Plan, llrs: &[i32], limits: Limits) -> Result<Report, Refusal> {
        let within = plan.fits(&*self.check) && llrs.len() == plan.len() && limits.are_lawful();
        if !within {
            return refuse("load", 10, 0);
        }
        if let Some(at) = llrs
            .iter()
            .position(|v| !(-LLR_LIMIT..=LLR_LIMIT).contains(v))
        {
            return refuse("load", 10, at);
        }
        self.store.empty(limits.capacity);
        self.rows[0].clear();
        self.store.put(Candidate {
            metric: 0,
            length: 0,
            serial: 0,
            row: 0,
        });
        self.serial = 1;
        self.steps = 0;
        self.failures = 0;
        let llrs = llrs.iter().map(|&v| v as i64).collect();
        self.block = Some(Block {
            plan: plan.clone(),
            llrs,
            limits,
        });
        self.phase = Phase::Searching;
        self.report()
    }

    pub fn advance(&mut self, b: u32, scratch: &mut [u32]) -> Result<(Met, Report), Refusal> {
        if self.phase != Phase::Searching {
            return refuse("advance", 11, 0);
        }
        let used = 2 * self.block().plan.len();
        if !(1..=65536).contains(&b) || scratch.len() < used {
            return refuse("advance", 12, 0);
        }
        // The twin works in memory of its own; only what scratch holds after can be seen.
        let met = self.run(b);
        scratch[..used].fill(0);
        Ok((met, self.report()?))
    }

    pub fn strike(&mut self) -> Result<Report, Refusal> {
        let Phase::Shown { .. } = self.phase else {
            return refuse("strike", 11, 0);
        };
        self.phase = Phase::Searching;
        self.report()
    }

    pub fn word(&self, out: &mut [u8]) -> Result<(), Refusal> {
        let Phase::Shown { row, .. } = self.phase else {
            return refuse("word", 11, 0);
        };
        let plan = &self.block().plan;
        if out.len() != plan.payload {
            return refuse("word", 13, 0);
        }
        let bits = plan.information_bits(&self.rows[row]);
        out.copy_from_slice(&self.check.read(plan.payload, &bits));
        Ok(())
    }

    pub fn report(&self) -> Result<Report, Refusal> {
        let metric = match self.phase {
            Phase::Blank => return refuse("report", 11, 0),
            Phase::Shown { metric, .. } => Some(metric),
            Phase::Searching | Phase::Ended => None,
        };
        let floor = self.store.floor();
        let bound = lesser(floor, self.store.first_metric());
        Ok(Report {
            metric,
            floor,
            bound,
            steps: self.steps,
            failures: self.failures,
        })
    }

    /// The kept candidates in order, each with its path. Before the first load rows hold no paths.
    pub fn kept(&self) -> Option<Vec<(Candidate, &[u8])>> {
        let with_path = |c: Candidate| (c, &self.rows[c.row][..]);
        self.block.as_ref()?;
        Some(self.store.kept().into_iter().map(with_path).collect())
    }

    fn block(&self) -> &Block {
        self.block
            .as_ref()
            .expect("a block is loaded in every phase but blank")
    }

    /// Looks and steps until something is met.
    fn run(&mut self, b: u32) -> Met {
        let limits = self.block().limits;
        let mut made = 0;
        while self.phase == Phase::Searching {
            if self.store.first_metric().is_none() {
                self.phase = Phase::Ended;
                return Met::NoneLeft;
            }
            if self.failures == limits.failures || self.steps == limits.steps {
                self.phase = Phase::Ended;
                return Met::GivenUp;
            }
            if made == b {
                return Met::Paused;
            }
            self.step();
            made += 1;
        }
        Met::Shown
    }

    fn step(&mut self) {
        let parent = self.store.take().expect("looked at before");
        self.steps += 1;
        if parent.length == self.block().plan.len() {
            self.judge(parent);
        } else {
            self.put_children(parent);
        }
    }

    fn judge(&mut self, whole: Candidate) {
        let plan = &self.block().plan;
        let bits = plan.information_bits(&self.rows[whole.row]);
        if self.check.accepts(plan.payload, &bits) {
            self.phase = Phase::Shown {
                metric: whole.metric,
                row: whole.row,
            };
        } else {
            self.failures += 1;
        }
    }

    fn put_children(&mut self, parent: Candidate) {
        let path = self.rows[parent.row].clone();
        let Block { plan, llrs, .. } = self.block();
        let value = decision(llrs, &path);
        let kind = plan.kinds[parent.length];
        let bits = match kind {
            Kind::Frozen => vec![0],
            Kind::Parity => vec![plan.parity_bit(parent.length, &path)],
            Kind::Information => vec![0, 1],
        };
        for bit in bits {
            let child = [&path[..], &[bit]].concat();
            if kind == Kind::Information && self.is_hopeless(&child) {
                continue;
            }
            self.put(child, parent.metric + bit_cost(value, bit) as u32);
        }
    }

    fn is_hopeless(&self, path: &[u8]) -> bool {
        let plan = &self.block().plan;
        self.check
            .hopeless(plan.payload, &plan.information_bits(path))
    }

    fn put(&mut self, path: Vec<u8>, metric: u32) {
        let row = (0..ROWS)
            .find(|&r| !self.store.holds_row(r))
            .expect("at most 128 are kept");
        let candidate = Candidate {
            metric,
            length: path.len(),
            serial: self.serial,
            row,
        };
        self.rows[row] = path;
        self.serial += 1;
        self.store.put(candidate);
    }
}
