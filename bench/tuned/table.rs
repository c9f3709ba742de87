//! Job tables.
use crate::*;

/// A job line in its usual form, from its first byte to behind its line feed. None where the
/// line has to be looked at closely.
#[inline(always)]
pub fn quick_job(
    text: &[u8],
    start: usize,
    k: usize,
    fields: &mut Fields,
    steps: &mut Vec<(i64, i64)>,
) -> Option<usize> {
    if !text[start..].starts_with(b"job ") || text[start + 4] == b'0' {
        return None;
    }
    let (value, mut at) = digits(text, start + 4)?;
    if value != k as u64 {
        return None;
    }
    let natural = |at: usize| number(text, at).filter(|x| x.0 >= 0);
    loop {
        let end = text[at];
        if end == b'\n' {
            break;
        }
        if !is_space(end) {
            return None;
        }
        at += 1;
        let key = text[at];
        if is_space(key) {
            continue;
        }
        if text[at + 1] != b'=' {
            return None;
        }
        at += 2;
        let bit = match key {
            b'p' => {
                (fields.p, at) = natural(at)?;
                if text[at] == b',' {
                    (fields.q, at) = natural(at + 1)?;
                    fields.seen |= TWO;
                }
                TIME
            }
            b'w' => {
                (fields.weight, at) = natural(at)?;
                WEIGHT
            }
            b'd' => {
                (fields.due, at) = number(text, at)?;
                DUE
            }
            b'r' => {
                (fields.release, at) = natural(at)?;
                RELEASE
            }
            b'h' => {
                (fields.base, at) = number(text, at)?;
                let (mut before, mut least) = (-1, fields.base);
                while text[at] == b',' {
                    let (time, colon) = natural(at + 1)?;
                    if text[colon] != b':' {
                        return None;
                    }
                    let (value, next) = number(text, colon + 1)?;
                    if time <= before || value < least {
                        return None;
                    }
                    steps.push((time, value));
                    (before, least, at) = (time, value, next);
                }
                COST
            }
            _ => return None,
        };
        if fields.seen & bit != 0 {
            return None;
        }
        fields.seen |= bit;
    }
    (fields.seen & TIME != 0).then_some(at + 1)
}

/// A job line in any form, or the name of its first fault.
pub fn slow_job(
    line: &[u8],
    k: usize,
    fields: &mut Fields,
    steps: &mut Vec<(i64, i64)>,
) -> Result<(), &'static str> {
    const BAD: &str = "BadLine";
    let mut parts = words(line).skip(1);
    if parts.next() != Some(k.to_string().as_bytes()) {
        return Err(BAD);
    }
    for word in parts {
        let equals = word.iter().position(|&b| b == b'=').ok_or(BAD)?;
        let value = &word[equals + 1..];
        let bit = match &word[..equals] {
            b"p" => TIME,
            b"w" => WEIGHT,
            b"d" => DUE,
            b"r" => RELEASE,
            b"h" => COST,
            _ => return Err(BAD),
        };
        if fields.seen & bit != 0 {
            return Err(BAD);
        }
        fields.seen |= bit;
        match bit {
            TIME => {
                let commas = value.iter().filter(|&&b| b == b',').count();
                if commas > 1 {
                    return Err(BAD);
                }
                let mut times = value.split(|&b| b == b',');
                fields.p = judged(times.next().unwrap_or(b""), false)?;
                if let Some(second) = times.next() {
                    fields.q = judged(second, false)?;
                    fields.seen |= TWO;
                }
            }
            WEIGHT => fields.weight = judged(value, false)?,
            DUE => fields.due = judged(value, true)?,
            RELEASE => fields.release = judged(value, false)?,
            _ => slow_cost(value, fields, steps)?,
        }
    }
    if fields.seen & TIME == 0 {
        return Err(BAD);
    }
    Ok(())
}

pub fn slow_cost(
    value: &[u8],
    fields: &mut Fields,
    steps: &mut Vec<(i64, i64)>,
) -> Result<(), &'static str> {
    let parts = || value.split(|&b| b == b',');
    let colons = |part: &[u8]| part.iter().filter(|&&b| b == b':').count();
    if parts().skip(1).any(|part| colons(part) != 1) {
        return Err("BadLine");
    }
    fields.base = judged(parts().next().unwrap_or(b""), true)?;
    let from = steps.len();
    for part in parts().skip(1) {
        let mut halves = part.split(|&b| b == b':');
        let time = judged(halves.next().unwrap_or(b""), false)?;
        let value = judged(halves.next().unwrap_or(b""), true)?;
        steps.push((time, value));
    }
    let (mut before, mut least) = (-1, fields.base);
    for &(time, value) in &steps[from..] {
        if time <= before || value < least {
            return Err("BadCost");
        }
        (before, least) = (time, value);
    }
    Ok(())
}

/// `prec a b` in its usual form.
#[inline(always)]
pub fn quick_arc(text: &[u8], start: usize, n: usize) -> Option<((u32, u32), usize)> {
    if !text[start..].starts_with(b"prec ") {
        return None;
    }
    let (a, at) = digits(text, start + 5)?;
    if text[at] != b' ' {
        return None;
    }
    let (b, at) = digits(text, at + 1)?;
    let within = |x: u64| 1 <= x && x <= n as u64;
    (text[at] == b'\n' && within(a) && within(b)).then_some(((a as u32, b as u32), at + 1))
}

pub fn slow_arc(line: &[u8], n: usize) -> Result<(u32, u32), &'static str> {
    let parts: Vec<&[u8]> = words(line).take(4).collect();
    let [_, a, b] = parts[..] else {
        return Err("BadLine");
    };
    let job = |word: &[u8]| {
        let (negative, size) = wide(word).ok_or("BadNumber")?;
        if negative || size < 1 || size > n as u64 {
            return Err("BadArc");
        }
        Ok(size as u32)
    };
    Ok((job(a)?, job(b)?))
}

pub fn machines_line(line: &[u8]) -> Result<u32, &'static str> {
    let parts: Vec<&[u8]> = words(line).take(3).collect();
    let [_, m] = parts[..] else {
        return Err("BadLine");
    };
    let (negative, size) = wide(m).ok_or("BadNumber")?;
    if negative || size < 1 || size > MAX_MACHINES as u64 {
        return Err("BadLine");
    }
    Ok(size as u32)
}

pub fn read_table(source: &mut Source, class: Class) -> Res<Task> {
    let mut task = Task::new(class, if class.cost() { 0 } else { MAX_JOBS });
    let (mut line, mut at, mut heading, mut arcs) = (0, 0, false, 0);
    loop {
        if at == source.ready {
            if !source.more(is_feed)? {
                break;
            }
            at = 0;
        }
        line += 1;
        let text = source.text();
        let steps_from = task.steps.len();
        if heading && arcs == 0 && task.n < MAX_JOBS {
            let mut fields = Fields::default();
            if let Some(next) = quick_job(text, at, task.n + 1, &mut fields, &mut task.steps) {
                task.push(&fields, steps_from);
                at = next;
                continue;
            }
            task.steps.truncate(steps_from);
        }
        if task.n > 0 && arcs < MAX_ARCS {
            if let Some((arc, next)) = quick_arc(text, at, task.n) {
                arcs += 1;
                if class.arcs() {
                    task.arcs.push(arc);
                }
                at = next;
                continue;
            }
        }
        let end = line_end(text, at);
        let content = &text[at..end];
        at = end + 1;
        let Some(first) = words(content).next() else {
            continue;
        };
        if first[0] == b'#' {
            continue;
        }
        let judged = if !heading {
            heading = true;
            if words(content).eq([b"table" as &[u8], b"1"]) {
                Ok(())
            } else {
                Err("BadLine")
            }
        } else if first == b"job" && arcs == 0 {
            if task.n == MAX_JOBS {
                return refused("TooManyJobs");
            }
            let mut fields = Fields::default();
            let job = slow_job(content, task.n + 1, &mut fields, &mut task.steps);
            if job.is_ok() {
                task.push(&fields, steps_from);
            }
            job
        } else if first == b"prec" && task.n > 0 {
            if arcs == MAX_ARCS {
                return refused("TooManyArcs");
            }
            arcs += 1;
            slow_arc(content, task.n).map(|arc| {
                if class.arcs() {
                    task.arcs.push(arc);
                }
            })
        } else if first == b"machines" && task.n == 0 && task.given_machines.is_none() {
            machines_line(content).map(|m| task.given_machines = Some(m))
        } else {
            Err("BadLine")
        };
        if let Err(name) = judged {
            return at_line(name, line);
        }
    }
    if !heading {
        return refused("EndsEarly");
    }
    if task.n == 0 {
        return refused("NoJobs");
    }
    Ok(task)
}
