//! The check of an answer.
use crate::*;

pub type Judged<T> = Result<T, String>;

pub fn say<T>(text: impl Into<String>) -> Judged<T> {
    Err(text.into())
}

/// Sorts the pieces by machine and start and refuses those that make no schedule.
pub fn schedule(pieces: &mut [Piece]) -> Judged<()> {
    for (k, piece) in pieces.iter().enumerate() {
        if piece.start < 0 || piece.stop > LIMIT {
            return say(format!("OutOfRange {}", k + 1));
        }
        if piece.stop <= piece.start {
            return say(format!("EmptyPiece {}", k + 1));
        }
    }
    let order = |x: &Piece| (x.machine, x.start);
    if !pieces.windows(2).all(|w| order(&w[0]) <= order(&w[1])) {
        pieces.sort_unstable_by_key(order);
    }
    let clash = pieces
        .windows(2)
        .find(|w| w[0].machine == w[1].machine && w[1].start < w[0].stop);
    match clash {
        Some(w) => say(format!("MachineTwice {} {}", w[1].machine, w[1].start)),
        None => Ok(()),
    }
}

/// The smallest job that is on two machines at once, and the smallest such time.
pub fn job_twice(n: usize, pieces: &[Piece]) -> Option<(u32, i64)> {
    let mut count = vec![0u8; n + 1];
    for piece in pieces {
        let count = &mut count[piece.job as usize];
        *count = (*count + 1).min(2);
    }
    let several = pieces.iter().filter(|piece| count[piece.job as usize] > 1);
    let mut several: Vec<(u32, i64, i64)> = several.map(|x| (x.job, x.start, x.stop)).collect();
    several.sort_unstable();
    let (mut job, mut until) = (0, 0);
    for (j, start, stop) in several {
        if j != job {
            (job, until) = (j, 0);
        }
        if start < until {
            return Some((job, start));
        }
        until = until.max(stop);
    }
    None
}

/// Judges whether kept pieces fit, and answers each job's completion.
pub fn fits(task: &Task, pieces: &[Piece]) -> Judged<Vec<i64>> {
    let (n, class) = (task.n, task.class);
    let shop = class.shop();
    let strange = |x: &&Piece| x.job as usize > n || x.machine as usize > task.m;
    if let Some(piece) = pieces.iter().find(strange) {
        return say(format!("Stranger {} {}", piece.job, piece.machine));
    }
    let twice = |found: Option<(u32, i64)>| match found {
        Some((job, time)) => say(format!("JobTwice {job} {time}")),
        None => Ok(()),
    };
    if task.m > 1 && !shop {
        twice(job_twice(n, pieces))?;
    }
    // On a single machine and in shops each machine has its own places.
    let places = if shop { 2 * n } else { n };
    let with_starts = shop || class.release() || class.arcs();
    let mut amounts = vec![0i64; places];
    let mut stops = vec![0i64; places];
    let mut starts = vec![i64::MAX; if with_starts { places } else { 0 }];
    let (mut broken, mut several) = (u32::MAX, false);
    let mut before = Piece {
        job: 0,
        machine: 0,
        start: 0,
        stop: 0,
    };
    for &piece in pieces {
        let own = if shop {
            (piece.machine as usize - 1) * n
        } else {
            0
        };
        let k = own + piece.job as usize - 1;
        let joined = before.job == piece.job
            && before.machine == piece.machine
            && before.stop == piece.start;
        if amounts[k] > 0 && !joined {
            several = true;
            broken = broken.min(piece.job);
        }
        if with_starts {
            starts[k] = starts[k].min(piece.start);
        }
        amounts[k] += piece.stop - piece.start;
        stops[k] = stops[k].max(piece.stop);
        before = piece;
    }
    if shop {
        // With one stretch on each machine a job's two can be compared at once.
        let clash = |j: usize| {
            let start = starts[j].max(starts[n + j]);
            (start < stops[j].min(stops[n + j])).then_some((j as u32 + 1, start))
        };
        twice(if several {
            job_twice(n, pieces)
        } else {
            (0..n).find_map(clash)
        })?;
    }
    let wrong = |&j: &usize| amounts[j] != task.p[j] || shop && amounts[n + j] != task.q[j];
    if let Some(j) = (0..n).find(wrong) {
        return say(format!("WrongAmount {}", j + 1));
    }
    if !class.prmp && broken < u32::MAX {
        return say(format!("Broken {broken}"));
    }
    if class.release() {
        if let Some(j) = (0..n).find(|&j| starts[j] < task.release[j]) {
            return say(format!("TooEarly {}", j + 1));
        }
    }
    for &(a, b) in &task.arcs {
        if stops[a as usize - 1] > starts[b as usize - 1] {
            return say(format!("OutOfOrder {a} {b}"));
        }
    }
    if class.kind == FlowTwo {
        if let Some(j) = (0..n).find(|&j| stops[j] > starts[n + j]) {
            return say(format!("OutOfOrder {0} {0}", j + 1));
        }
    }
    if shop {
        for j in 0..n {
            stops[j] = stops[j].max(stops[n + j]);
        }
        stops.truncate(n);
    }
    Ok(stops)
}

pub fn cost(task: &Task, completions: &[i64]) -> i128 {
    let each = || completions.iter().enumerate();
    match task.class.kind {
        WeightedSum => each()
            .map(|(j, &c)| c as i128 * task.weight[j] as i128)
            .sum(),
        PlainSum | ParallelSum => completions.iter().map(|&c| c as i128).sum(),
        FlowTwo | OpenTwo | ParallelPrmp => completions.iter().copied().max().unwrap_or(0) as i128,
        _ => each().map(|(j, &c)| task.cost_at(j, c)).max().unwrap_or(0) as i128,
    }
}

/// Which jobs a list names.
pub fn members(task: &Task, jobs: &[u32]) -> Judged<Vec<bool>> {
    let mut marks = vec![false; task.n];
    for &job in jobs {
        match marks.get_mut(job as usize - 1) {
            None => return say(format!("BadJob {job}")),
            Some(true) => return say(format!("Repeated {job}")),
            Some(mark) => *mark = true,
        }
    }
    Ok(marks)
}

pub fn not_empty(jobs: &[u32]) -> Judged<()> {
    if jobs.is_empty() {
        return say("EmptySet");
    }
    Ok(())
}

pub fn bound(task: &Task, certificate: &Certificate) -> Judged<i64> {
    let indices = |jobs: &[u32]| jobs.iter().map(|&j| j as usize - 1).collect::<Vec<_>>();
    match (certificate, task.class.kind) {
        (Certificate::Pairs, WeightedSum | PlainSum) => Ok(weighted_sum(task, &smith(task))),
        (Certificate::Last(jobs), Hmax | PrecHmax | Lmax | PrecLmax) => {
            let mut ending = members(task, jobs)?;
            not_empty(jobs)?;
            let marks = if task.arcs.is_empty() {
                Vec::new()
            } else {
                ending.clone()
            };
            for &(a, b) in &task.arcs {
                if marks[b as usize - 1] {
                    ending[a as usize - 1] = false;
                }
            }
            let jobs = indices(jobs);
            let total = jobs.iter().map(|&j| task.p[j]).sum();
            let least = jobs
                .iter()
                .filter(|&&j| ending[j])
                .map(|&j| task.cost_at(j, total))
                .min();
            match least {
                Some(least) => Ok(least),
                None => say(format!("Condition {}", jobs.iter().min().unwrap_or(&0) + 1)),
            }
        }
        (Certificate::Window(jobs), ReleaseLmax) => {
            members(task, jobs)?;
            not_empty(jobs)?;
            let (mut least, mut work, mut most) = (i64::MAX, 0, i64::MIN);
            for j in indices(jobs) {
                least = least.min(task.release[j]);
                work += task.p[j];
                most = most.max(task.due[j]);
            }
            Ok(least + work - most)
        }
        (Certificate::Split { side, delta, first }, FlowTwo) => {
            split_bound(task, &members(task, side)?, *delta, *first)
        }
        (Certificate::Load, ParallelPrmp) => Ok(load(task)),
        (Certificate::Machine(machine), OpenTwo) => match machine {
            1 => Ok(task.p.iter().sum()),
            2 => Ok(task.q.iter().sum()),
            _ => say(format!("BadMachine {machine}")),
        },
        (Certificate::OneJob(job), ParallelPrmp | OpenTwo) => {
            let j = *job as usize - 1;
            if j >= task.n {
                return say(format!("BadJob {job}"));
            }
            Ok(task.p[j] + task.q.get(j).unwrap_or(&0))
        }
        (Certificate::Ranks(jobs), ParallelSum) => {
            members(task, jobs)?;
            not_empty(jobs)?;
            let (mut value, mut before) = (0, i64::MAX);
            let mut place = 0;
            let mut in_rank = 0;
            for &job in jobs {
                let p = task.p[job as usize - 1];
                if p > before {
                    return say(format!("Condition {job}"));
                }
                if in_rank == 0 {
                    place += 1;
                    in_rank = task.m;
                }
                in_rank -= 1;
                value += place * p;
                before = p;
            }
            Ok(value)
        }
        _ => say("OtherKind"),
    }
}

/// The bound of a split, `side` its marks.
pub fn split_bound(task: &Task, side: &[bool], delta: i64, first: bool) -> Judged<i64> {
    let (p, q) = (&task.p, &task.q);
    let (mut value, mut reached) = (delta, false);
    for j in 0..task.n {
        let (a, b) = (p[j], q[j]);
        value += if side[j] { a } else { b };
        // The jobs of one set have only to be ordered, those of the other may reach delta.
        let (own, other) = if first { (a, b) } else { (b, a) };
        let fine = if side[j] == first {
            other >= own
        } else {
            reached |= own >= delta;
            own >= delta || own >= other
        };
        if !fine {
            return say(format!("Condition {}", j + 1));
        }
    }
    if delta < 0 || !reached {
        return say("BadDelta");
    }
    Ok(value)
}

pub fn check(task: &Task, sheet: &mut Sheet) -> Judged<()> {
    schedule(&mut sheet.pieces)?;
    let completions = fits(task, &sheet.pieces)?;
    if cost(task, &completions) != sheet.value as i128 {
        return say("WrongValue");
    }
    if bound(task, &sheet.certificate)? < sheet.value {
        return say("BoundBelowValue");
    }
    Ok(())
}
