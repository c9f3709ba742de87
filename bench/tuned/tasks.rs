//! Tasks in columns.
use crate::*;

/// The columns that the class uses, job by job, and what `prepare` will ask.
pub struct Task {
    pub class: Class,
    pub n: usize,
    pub m: usize,
    pub p: Vec<i64>,
    pub q: Vec<i64>,
    pub weight: Vec<i64>,
    pub due: Vec<i64>,
    pub release: Vec<i64>,
    pub base: Vec<i64>,
    pub steps_until: Vec<u32>,
    pub steps: Vec<(i64, i64)>,
    pub arcs: Vec<(u32, u32)>,
    pub given_machines: Option<u32>,
    pub wrong_times: usize,
    pub missing: Option<(usize, &'static str)>,
}

pub const TIME: u8 = 1;
pub const TWO: u8 = 2;
pub const WEIGHT: u8 = 4;
pub const DUE: u8 = 8;
pub const RELEASE: u8 = 16;
pub const COST: u8 = 32;

#[derive(Default)]
pub struct Fields {
    pub seen: u8,
    pub p: i64,
    pub q: i64,
    pub weight: i64,
    pub due: i64,
    pub release: i64,
    pub base: i64,
}

impl Task {
    pub fn new(class: Class, room: usize) -> Task {
        let column = |used: bool| Vec::with_capacity(if used { room } else { 0 });
        Task {
            class,
            n: 0,
            m: 1,
            p: column(true),
            q: column(class.shop()),
            weight: column(class.weight()),
            due: column(class.due()),
            release: column(class.release()),
            base: Vec::new(),
            steps_until: Vec::new(),
            steps: Vec::new(),
            arcs: Vec::new(),
            given_machines: None,
            wrong_times: 0,
            missing: None,
        }
    }

    /// Adds a job whose steps, if any, stand in `steps` from `steps_from` on.
    #[inline(always)]
    pub fn push(&mut self, fields: &Fields, steps_from: usize) {
        self.n += 1;
        let class = self.class;
        let mut lacks = |bit: u8, name: &'static str| {
            if fields.seen & bit == 0 && self.missing.is_none() {
                self.missing = Some((self.n, name));
            }
        };
        if class.weight() {
            self.weight.push(fields.weight);
            lacks(WEIGHT, "weight");
        }
        if class.release() {
            self.release.push(fields.release);
            lacks(RELEASE, "release");
        }
        if class.due() {
            self.due.push(fields.due);
            lacks(DUE, "due");
        }
        if class.cost() {
            self.base.push(fields.base);
            self.steps_until.push(self.steps.len() as u32);
            lacks(COST, "cost");
        } else {
            self.steps.truncate(steps_from);
        }
        if (fields.seen & TWO != 0) != class.shop() && self.wrong_times == 0 {
            self.wrong_times = self.n;
        }
        self.p.push(fields.p);
        if class.shop() {
            self.q.push(fields.q);
        }
    }

    /// What is left of the refusals once the text is read.
    pub fn prepare(&mut self, problem: &Problem, argument: Option<u32>) -> Res<()> {
        let class = self.class;
        if class.cost() && self.n > MAX_STEP_JOBS {
            return refused("TooManyJobs");
        }
        if problem.env != b'1' {
            let mut given = [problem.count, argument, self.given_machines]
                .into_iter()
                .flatten();
            let Some(m) = given.next() else {
                return refused("MachinesMissing");
            };
            if given.any(|other| other != m) {
                return refused("MachinesDisagree");
            }
            if class.shop() && m != 2 {
                return refused(format!("MachineCount {m}"));
            }
            self.m = m as usize;
        }
        if self.wrong_times > 0 {
            return refused(format!("WrongTimes {}", self.wrong_times));
        }
        if let Some((job, field)) = self.missing {
            return refused(format!("MissingField {job} {field}"));
        }
        if !class.shop() {
            if let Some(k) = self.p.iter().position(|&p| p == 0) {
                return refused(format!("ZeroTime {}", k + 1));
            }
        }
        let limit = LIMIT as u128;
        let sum = |column: &[i64]| column.iter().map(|&x| x as u128).sum::<u128>();
        let work = sum(&self.p) + sum(&self.q);
        let weight = sum(&self.weight);
        let last_release = self.release.iter().max().map_or(0, |&r| r as u128);
        let fits = match class.kind {
            WeightedSum => work <= limit && weight <= limit && weight * work <= limit,
            PlainSum | ParallelSum => self.n as u128 * work <= limit,
            ReleaseLmax => last_release + work <= limit,
            _ => work <= limit,
        };
        if fits {
            Ok(())
        } else {
            refused("TotalTooLarge")
        }
    }

    pub fn total(&self) -> i64 {
        self.p.iter().sum()
    }

    pub fn steps_of(&self, j: usize) -> &[(i64, i64)] {
        let from = if j == 0 {
            0
        } else {
            self.steps_until[j - 1] as usize
        };
        &self.steps[from..self.steps_until[j] as usize]
    }

    /// h_j(c), which is the lateness where the class has due dates.
    pub fn cost_at(&self, j: usize, c: i64) -> i64 {
        if !self.class.cost() {
            return c - self.due[j];
        }
        let steps = self.steps_of(j);
        match steps.partition_point(|s| s.0 <= c) {
            0 => self.base[j],
            k => steps[k - 1].1,
        }
    }
}
