//! The solvers.
use crate::*;

pub fn solve(problem: &Problem, task: &Task) -> Res<()> {
    match task.class.kind {
        WeightedSum | PlainSum => wspt(problem, task),
        Hmax | PrecHmax | Lmax | PrecLmax => lawler(problem, task),
        ReleaseLmax => edd(problem, task),
        FlowTwo => johnson(problem, task),
        OpenTwo => open_two(problem, task),
        ParallelPrmp => mcnaughton(problem, task),
        ParallelSum => spt(problem, task),
    }
}

/// The weighted completions of jobs in this order without idle time.
pub fn weighted_sum(task: &Task, order: &[u32]) -> i64 {
    let (mut t, mut value) = (0, 0);
    for &j in order {
        t += task.p[j as usize];
        value += t * task.weight.get(j as usize).unwrap_or(&1);
    }
    value
}

pub fn one_by_one(text: &mut Text, task: &Task, order: &[u32]) {
    let mut t = 0;
    for &j in order {
        let stop = t + task.p[j as usize];
        text.piece(j as usize, 1, t, stop);
        t = stop;
    }
}

pub fn wspt(problem: &Problem, task: &Task) -> Res<()> {
    let order = smith(task);
    let mut text = Text::answer(problem, task, weighted_sum(task, &order));
    one_by_one(&mut text, task, &order);
    text.say("cert pairs");
    text.end_answer()
}

pub fn lawler(problem: &Problem, task: &Task) -> Res<()> {
    let order = match task.class.kind {
        Lmax => sorted(&task.due),
        PrecLmax => backward_by_due(task)?,
        _ => backward_by_cost(task)?,
    };
    let mut t = task.total();
    let (mut value, mut last) = (i64::MIN, 0);
    for k in (0..task.n).rev() {
        let j = order[k] as usize;
        let cost = task.cost_at(j, t);
        if cost > value {
            (value, last) = (cost, k);
        }
        t -= task.p[j];
    }
    let mut text = Text::answer(problem, task, value);
    one_by_one(&mut text, task, &order);
    text.say("cert last");
    let mut marks = vec![false; task.n];
    order[..=last]
        .iter()
        .for_each(|&j| marks[j as usize] = true);
    text.marked(&marks);
    text.end_answer()
}

/// How many successors each job has, and its predecessors job by job.
pub struct Arcs {
    pub successors: Vec<u32>,
    pub until: Vec<u32>,
    pub before: Vec<u32>,
}

impl Arcs {
    pub fn new(task: &Task) -> Arcs {
        let mut successors = vec![0; task.n];
        let mut until = vec![0; task.n + 1];
        for &(a, b) in &task.arcs {
            successors[a as usize - 1] += 1;
            until[b as usize] += 1;
        }
        for j in 0..task.n {
            until[j + 1] += until[j];
        }
        let mut before = vec![0; task.arcs.len()];
        let mut next = until.clone();
        for &(a, b) in &task.arcs {
            let place = &mut next[b as usize - 1];
            before[*place as usize] = a - 1;
            *place += 1;
        }
        Arcs {
            successors,
            until,
            before,
        }
    }

    /// Places a job last and calls `free` for each job that has no successor left by that.
    pub fn place(&mut self, j: usize, mut free: impl FnMut(usize)) {
        for k in self.until[j]..self.until[j + 1] {
            let a = self.before[k as usize] as usize;
            self.successors[a] -= 1;
            if self.successors[a] == 0 {
                free(a);
            }
        }
    }
}

pub fn backward_by_due(task: &Task) -> Res<Vec<u32>> {
    let mut arcs = Arcs::new(task);
    let keys = keys(&task.due);
    let free = keys
        .iter()
        .copied()
        .filter(|&k| arcs.successors[index(k)] == 0);
    let mut heap: BinaryHeap<u64> = free.collect::<Vec<_>>().into();
    let mut order = Vec::with_capacity(task.n);
    while let Some(key) = heap.pop() {
        order.push(index(key) as u32);
        arcs.place(index(key), |a| heap.push(keys[a]));
    }
    order.reverse();
    no_cycle(task, order)
}

/// Among the allowed jobs the one of least cost at the remaining work goes last. A job's cost
/// only falls on the way back, so it is put in anew at each change and its first entry counts.
pub fn backward_by_cost(task: &Task) -> Res<Vec<u32>> {
    let mut t = task.total();
    let mut arcs = Arcs::new(task);
    let mut by_cost: BinaryHeap<(Reverse<i64>, usize)> = BinaryHeap::new();
    let mut changes: BinaryHeap<(i64, usize)> = BinaryHeap::new();
    let mut placed = vec![false; task.n];
    let allow = |by_cost: &mut BinaryHeap<_>, changes: &mut BinaryHeap<_>, j: usize, t: i64| {
        let steps = task.steps_of(j);
        match steps.partition_point(|s| s.0 <= t) {
            0 => by_cost.push((Reverse(task.base[j]), j)),
            k => {
                by_cost.push((Reverse(steps[k - 1].1), j));
                changes.push((steps[k - 1].0, j));
            }
        }
    };
    for j in (0..task.n).filter(|&j| arcs.successors[j] == 0) {
        allow(&mut by_cost, &mut changes, j, t);
    }
    let mut order = Vec::with_capacity(task.n);
    while let Some((_, j)) = by_cost.pop() {
        if placed[j] {
            continue;
        }
        placed[j] = true;
        order.push(j as u32);
        t -= task.p[j];
        while changes.peek().is_some_and(|x| t < x.0) {
            if let Some((_, j)) = changes.pop().filter(|x| !placed[x.1]) {
                allow(&mut by_cost, &mut changes, j, t);
            }
        }
        arcs.place(j, |a| allow(&mut by_cost, &mut changes, a, t));
    }
    order.reverse();
    no_cycle(task, order)
}

/// The order, if it has all jobs; otherwise the cycle that is left.
pub fn no_cycle(task: &Task, order: Vec<u32>) -> Res<Vec<u32>> {
    if order.len() == task.n {
        return Ok(order);
    }
    let mut left = vec![true; task.n];
    order.iter().for_each(|&j| left[j as usize] = false);
    let mut next = vec![usize::MAX; task.n];
    for &(a, b) in &task.arcs {
        let (a, b) = (a as usize - 1, b as usize - 1);
        if left[a] && left[b] {
            next[a] = next[a].min(b);
        }
    }
    let mut walk = Vec::new();
    let mut place = vec![usize::MAX; task.n];
    let mut j = left.iter().position(|&x| x).unwrap_or(0);
    while place[j] == usize::MAX {
        place[j] = walk.len();
        walk.push(j);
        j = next[j];
    }
    let cycle = &walk[place[j]..];
    refused(
        cycle
            .iter()
            .fold("Cycle".to_string(), |text, j| format!("{text} {}", j + 1)),
    )
}

pub fn edd(problem: &Problem, task: &Task) -> Res<()> {
    let by_release = sorted(&task.release);
    let keys = keys(&task.due);
    let mut left = task.p.clone();
    let mut done = vec![0; task.n];
    let mut heap: BinaryHeap<u64> = BinaryHeap::with_capacity(task.n);
    let mut pieces: Vec<Piece> = Vec::with_capacity(2 * task.n);
    let (mut t, mut next) = (0, 0);
    loop {
        let Some(&top) = heap.peek() else {
            if next == task.n {
                break;
            }
            t = t.max(task.release[by_release[next] as usize]);
            while next < task.n && task.release[by_release[next] as usize] <= t {
                heap.push(!keys[by_release[next] as usize]);
                next += 1;
            }
            continue;
        };
        let j = index(!top);
        let event = by_release
            .get(next)
            .map_or(i64::MAX, |&k| task.release[k as usize]);
        let stop = (t + left[j]).min(event);
        match pieces.last_mut() {
            Some(last) if last.job == j as u32 && last.stop == t => last.stop = stop,
            _ => pieces.push(Piece {
                job: j as u32,
                machine: 1,
                start: t,
                stop,
            }),
        }
        left[j] -= stop - t;
        t = stop;
        if left[j] == 0 {
            done[j] = t;
            heap.pop();
        }
        while next < task.n && task.release[by_release[next] as usize] <= t {
            heap.push(!keys[by_release[next] as usize]);
            next += 1;
        }
    }
    let (mut value, mut k) = (i64::MIN, 0);
    for j in 0..task.n {
        if done[j] - task.due[j] > value {
            (value, k) = (done[j] - task.due[j], j);
        }
    }
    let mut text = Text::answer(problem, task, value);
    for piece in &pieces {
        text.piece(piece.job as usize, 1, piece.start, piece.stop);
    }
    let mut marks = vec![false; task.n];
    let until = pieces.partition_point(|piece| piece.stop <= done[k]);
    let mut s = done[k];
    for piece in pieces[..until].iter().rev() {
        let j = piece.job as usize;
        if piece.stop != s || task.due[j] > task.due[k] {
            break;
        }
        marks[j] = true;
        s = piece.start;
    }
    text.say("cert window");
    text.marked(&marks);
    text.end_answer()
}

pub fn johnson(problem: &Problem, task: &Task) -> Res<()> {
    let (p, q) = (&task.p, &task.q);
    let most_p = p.iter().copied().max().unwrap_or(0);
    let most_q = q.iter().copied().max().unwrap_or(0);
    let rank = |(&a, &b): (&i64, &i64)| if a <= b { a } else { most_p + 1 + (most_q - b) };
    let order = sorted(&p.iter().zip(q).map(rank).collect::<Vec<_>>());
    let (mut first, mut second, mut at) = (0, 0, 0);
    for (k, &j) in order.iter().enumerate() {
        first += p[j as usize];
        if first > second {
            at = k;
            second = first;
        }
        second += q[j as usize];
    }
    let mut text = Text::answer(problem, task, second);
    let mut t = 0;
    for &j in &order {
        let j = j as usize;
        if p[j] > 0 {
            text.piece(j, 1, t, t + p[j]);
            t += p[j];
        }
    }
    let (mut first, mut second) = (0, 0);
    for &j in &order {
        let j = j as usize;
        first += p[j];
        if q[j] > 0 {
            second = first.max(second);
            text.piece(j, 2, second, second + q[j]);
            second += q[j];
        }
    }
    let k = order[at] as usize;
    let mut marks = vec![false; task.n];
    order[..at].iter().for_each(|&j| marks[j as usize] = true);
    if p[k] <= q[k] {
        text.say(&format!("cert split first {}", p[k]));
    } else {
        marks[k] = true;
        text.say(&format!("cert split second {}", q[k]));
    }
    text.marked(&marks);
    text.end_answer()
}

pub fn open_two(problem: &Problem, task: &Task) -> Res<()> {
    let (p, q) = (&task.p, &task.q);
    let in_i = |j: usize| p[j] <= q[j];
    let largest = |within: &dyn Fn(usize) -> bool, times: &[i64]| {
        (0..task.n)
            .filter(|&j| within(j))
            .map(|j| (times[j], Reverse(j)))
            .max()
    };
    let of_i = largest(&in_i, p);
    let of_j = largest(&|j| !in_i(j), q);
    let i_leads = match (of_i, of_j) {
        (Some(i), Some(j)) => i.0 >= j.0,
        (i, _) => i.is_some(),
    };
    let r = if i_leads { of_i } else { of_j }.map_or(0, |x| x.1 .0);
    // Jobs other than r visit the leading machine first, one set after the other, r visits it
    // last; the other machine begins with r.
    let (lead, follow) = if i_leads { (p, q) } else { (q, p) };
    let sets = |set: bool| (0..task.n).filter(move |&j| j != r && in_i(j) == set);
    let others = || sets(i_leads).chain(sets(!i_leads));
    let mut led: Vec<Piece> = Vec::with_capacity(task.n);
    let mut followed: Vec<Piece> = Vec::with_capacity(task.n);
    let add = |pieces: &mut Vec<Piece>, j: usize, start: i64, time: i64| {
        if time > 0 {
            pieces.push(Piece {
                job: j as u32,
                machine: 0,
                start,
                stop: start + time,
            });
        }
    };
    add(&mut followed, r, 0, follow[r]);
    let (mut t, mut u) = (0, follow[r]);
    for j in others() {
        add(&mut led, j, t, lead[j]);
        t += lead[j];
        if follow[j] > 0 {
            u = u.max(t);
            add(&mut followed, j, u, follow[j]);
            u += follow[j];
        }
    }
    add(&mut led, r, t.max(follow[r]), lead[r]);
    let stop = |pieces: &[Piece]| pieces.last().map_or(0, |piece| piece.stop);
    let value = stop(&led).max(stop(&followed));
    let mut text = Text::answer(problem, task, value);
    let (one, two) = if i_leads {
        (&led, &followed)
    } else {
        (&followed, &led)
    };
    for (machine, pieces) in [(1, one), (2, two)] {
        for piece in pieces {
            text.piece(piece.job as usize, machine, piece.start, piece.stop);
        }
    }
    if p.iter().sum::<i64>() == value {
        text.say("cert machine 1");
    } else if q.iter().sum::<i64>() == value {
        text.say("cert machine 2");
    } else {
        text.say("cert job");
        text.job((0..task.n).find(|&j| p[j] + q[j] == value).unwrap_or(0));
    }
    text.end_answer()
}

pub fn load(task: &Task) -> i64 {
    let m = task.m as i64;
    let total = task.total();
    total / m + (total % m > 0) as i64
}

pub fn mcnaughton(problem: &Problem, task: &Task) -> Res<()> {
    let load = load(task);
    let longest = task.p.iter().copied().max().unwrap_or(0);
    let value = longest.max(load);
    let mut text = Text::answer(problem, task, value);
    let (mut machine, mut t) = (1, 0);
    for (j, &p) in task.p.iter().enumerate() {
        if t == value {
            (machine, t) = (machine + 1, 0);
        }
        let rest = p - p.min(value - t);
        text.piece(j, machine, t, t + p - rest);
        t += p - rest;
        if rest > 0 {
            machine += 1;
            text.piece(j, machine, 0, rest);
            t = rest;
        }
    }
    if load == value {
        text.say("cert load");
    } else {
        text.say("cert job");
        text.job(task.p.iter().position(|&p| p == longest).unwrap_or(0));
    }
    text.end_answer()
}

pub fn spt(problem: &Problem, task: &Task) -> Res<()> {
    let order = sorted(&task.p);
    let places = (0..task.n).rev().map(|k| (k / task.m + 1) as i64);
    let value = order
        .iter()
        .zip(places)
        .map(|(&j, k)| k * task.p[j as usize])
        .sum();
    let mut text = Text::answer(problem, task, value);
    for machine in 0..task.m.min(task.n) {
        let mut t = 0;
        for &j in order[machine..].iter().step_by(task.m) {
            let stop = t + task.p[j as usize];
            text.piece(j as usize, machine + 1, t, stop);
            t = stop;
        }
    }
    text.say("cert ranks");
    order.iter().rev().for_each(|&j| text.job(j as usize));
    text.end_answer()
}
