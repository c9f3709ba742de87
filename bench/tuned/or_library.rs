//! OR-Library's files.
use crate::*;

/// A word of at most seven digits at this place, and the place after the white space behind it.
#[inline(always)]
pub fn quick_word(text: &[u8], at: usize) -> Option<(i64, usize)> {
    let bytes = u64::from_le_bytes(text.get(at..at + 8)?.try_into().unwrap());
    let x = bytes ^ 0x3030_3030_3030_3030;
    let other = (x.wrapping_add(0x7676_7676_7676_7676) | x) & 0x8080_8080_8080_8080;
    let bits = other.trailing_zeros() & !7;
    if bits == 0 || bits == 64 || !is_space((bytes >> bits) as u8) {
        return None;
    }
    Some((
        eight_digits(x << (64 - bits)) as i64,
        at + bits as usize / 8 + 1,
    ))
}

/// The number at this place of a ready part and the place of the white space behind it.
#[inline(always)]
pub fn number_word(text: &[u8], at: usize) -> Result<(i64, usize), &'static str> {
    match number(text, at) {
        Some((value, next)) if is_space(text[next]) => Ok((value, next)),
        _ => long_word(text, at),
    }
}

#[cold]
#[inline(never)]
pub fn long_word(text: &[u8], at: usize) -> Result<(i64, usize), &'static str> {
    let length = text[at..]
        .iter()
        .position(|&b| is_space(b))
        .unwrap_or(text.len() - at);
    Ok((judged(&text[at..at + length], true)?, at + length))
}

pub fn read_wt(source: &mut Source, class: Class, n: usize, index: u64) -> Res<Task> {
    let size = 3 * n;
    let before = size as u64 * (index - 1);
    let until = before + size as u64;
    let mut word = 0;
    let mut values: Vec<i64> = Vec::with_capacity(size);
    while word < until && source.more(is_boundary)? {
        let text = source.text();
        let mut at = 0;
        while word < until {
            at = skip_space(text, at);
            if at == text.len() {
                break;
            }
            if let Some((value, next)) = quick_word(text, at) {
                if word >= before {
                    values.push(value);
                }
                (at, word) = (next, word + 1);
                continue;
            }
            let (value, next) = match number_word(text, at) {
                Ok(found) => found,
                Err(name) => return at_line(name, source.line_at(at)),
            };
            if value < 0 && word % (size as u64) < 2 * n as u64 {
                return at_line("Negative", source.line_at(at));
            }
            if word >= before {
                values.push(value);
            }
            (at, word) = (next, word + 1);
        }
    }
    if values.is_empty() {
        return refused("NoInstance");
    }
    if word < until {
        return refused("EndsEarly");
    }
    let mut task = Task::new(class, n);
    for j in 0..n {
        let fields = Fields {
            seen: TIME | WEIGHT | DUE,
            p: values[j],
            weight: values[n + j],
            due: values[2 * n + j],
            ..Fields::default()
        };
        task.push(&fields, 0);
    }
    Ok(task)
}

/// The sizes in a line of exactly two words of digits.
pub fn sizes(line: &[u8]) -> Option<(u64, u64)> {
    let mut parts = words(line);
    let mut size = || parts.next().filter(|w| w[0] != b'-').and_then(wide);
    let found = (size()?.1, size()?.1);
    parts.next().is_none().then_some(found)
}

pub fn read_flow(
    source: &mut Source,
    class: Class,
    name: &[u8],
    pair: Option<(u32, u32)>,
) -> Res<Task> {
    let mut at = 0;
    let next_line = |source: &mut Source, at: &mut usize| -> Res<Option<(usize, usize)>> {
        let found = source.next_line(*at)?;
        if let Some((_, end)) = found {
            *at = end + 1;
        }
        Ok(found)
    };
    loop {
        let Some((start, end)) = next_line(source, &mut at)? else {
            return refused("NoInstance");
        };
        let line = &source.buf[start..end];
        let rest = &line[skip_space(line, 0)..];
        if rest.starts_with(b"instance") && words(rest).eq([b"instance", name]) {
            break;
        }
    }
    let (n, m) = loop {
        let Some((start, end)) = next_line(source, &mut at)? else {
            return refused("EndsEarly");
        };
        let Some((n, m)) = sizes(&source.buf[start..end]) else {
            continue;
        };
        if n == 0 {
            return refused("NoJobs");
        }
        if n > MAX_JOBS as u64 {
            return refused("TooManyJobs");
        }
        if m == 0 || m > MAX_MACHINES as u64 {
            return at_line("BadLine", source.line_at(start));
        }
        break (n as usize, m as usize);
    };
    let (i, k) = match pair {
        Some((i, k)) if i == k || i as usize >= m || k as usize >= m => return refused("BadPair"),
        Some((i, k)) => (i as usize, k as usize),
        None => (0, 1),
    };
    let mut task = Task::new(class, n);
    task.given_machines = Some(if pair.is_some() { 2 } else { m as u32 });
    let mut fields = Fields {
        seen: if m > 1 { TIME | TWO } else { TIME },
        ..Fields::default()
    };
    let (mut machine, mut is_time) = (0, false);
    let mut add = |task: &mut Task, machine: &mut usize, time: i64| {
        if *machine == i {
            fields.p = time;
        }
        if *machine == k {
            fields.q = time;
        }
        *machine += 1;
        if *machine == m {
            *machine = 0;
            task.push(&fields, 0);
        }
    };
    loop {
        let text = source.text();
        while task.n < n {
            at = skip_space(text, at);
            if at == text.len() {
                break;
            }
            if !is_time {
                // Most pairs are small numbers, each with one blank behind it.
                if let Some((_, next)) = quick_word(text, at).filter(|x| x.0 == machine as i64) {
                    if let Some((time, next)) = quick_word(text, next) {
                        add(&mut task, &mut machine, time);
                        at = next;
                        continue;
                    }
                }
            }
            if !is_time {
                let next = at + text[at..].iter().take_while(|&&b| !is_space(b)).count();
                let Some(word) = wide(&text[at..next]) else {
                    return at_line("BadNumber", source.line_at(at));
                };
                if word != (false, machine as u64) {
                    return at_line("NotAFlowShop", source.line_at(at));
                }
                (at, is_time) = (next, true);
                continue;
            }
            let (value, next) = match number_word(text, at) {
                Ok(found) => found,
                Err(name) => return at_line(name, source.line_at(at)),
            };
            if value < 0 {
                return at_line("Negative", source.line_at(at));
            }
            add(&mut task, &mut machine, value);
            (at, is_time) = (next, false);
        }
        if task.n == n {
            return Ok(task);
        }
        if !source.more(is_boundary)? {
            return refused("EndsEarly");
        }
        at = 0;
    }
}
