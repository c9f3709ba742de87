//! Answer texts.
use crate::*;

pub enum Certificate {
    Pairs,
    Last(Vec<u32>),
    Window(Vec<u32>),
    Split {
        side: Vec<u32>,
        delta: i64,
        first: bool,
    },
    Load,
    Machine(u32),
    OneJob(u32),
    Ranks(Vec<u32>),
}

pub struct Sheet {
    pub problem: Problem,
    pub jobs: u32,
    pub machines: u32,
    pub value: i64,
    pub pieces: Vec<Piece>,
    pub certificate: Certificate,
}

pub type Named<T> = Result<T, &'static str>;

/// A number from 1 to a limit.
pub fn count(word: &[u8], limit: i64) -> Named<u32> {
    match wide(word).ok_or("BadLine")? {
        (true, _) | (_, 0) => Err("BadLine"),
        (_, size) if size > limit as u64 => Err("NumberTooLarge"),
        (_, size) => Ok(size as u32),
    }
}

/// A number from -limit - low to limit.
pub fn integer(word: &[u8], limit: u64, low: u64) -> Named<i64> {
    let (negative, size) = wide(word).ok_or("BadLine")?;
    if size > limit + low * negative as u64 {
        return Err("NumberTooLarge");
    }
    Ok(signed(negative, size))
}

#[inline(always)]
pub fn quick_piece(text: &[u8], start: usize) -> Option<(Piece, usize)> {
    if !text[start..].starts_with(b"piece ") {
        return None;
    }
    let (job, at) = digits(text, start + 6)?;
    if text[at] != b' ' {
        return None;
    }
    let (machine, at) = digits(text, at + 1)?;
    if text[at] != b' ' {
        return None;
    }
    let (start, at) = number(text, at + 1)?;
    if text[at] != b' ' {
        return None;
    }
    let (stop, at) = number(text, at + 1)?;
    let ranged =
        job.wrapping_sub(1) < MAX_JOBS as u64 && machine.wrapping_sub(1) < MAX_MACHINES as u64;
    let piece = Piece {
        job: job as u32,
        machine: machine as u32,
        start,
        stop,
    };
    (text[at] == b'\n' && ranged).then_some((piece, at + 1))
}

pub fn slow_piece(parts: &[&[u8]]) -> Named<Piece> {
    if parts.len() != 5 || parts[1..].iter().any(|w| wide(w).is_none()) {
        return Err("BadLine");
    }
    Ok(Piece {
        job: count(parts[1], MAX_JOBS as i64)?,
        machine: count(parts[2], MAX_MACHINES)?,
        start: integer(parts[3], LIMIT as u64, 0)?,
        stop: integer(parts[4], LIMIT as u64, 0)?,
    })
}

/// The jobs of a list that is the rest of a line.
pub fn job_list(rest: &[u8]) -> Named<Vec<u32>> {
    let mut jobs = Vec::new();
    let mut at = 0;
    loop {
        at = skip_space(rest, at);
        if at == rest.len() {
            return Ok(jobs);
        }
        match digits(rest, at) {
            Some((job, next))
                if job.wrapping_sub(1) < MAX_JOBS as u64
                    && rest.get(next).is_none_or(|&b| is_space(b)) =>
            {
                jobs.push(job as u32);
                at = next;
            }
            _ => break,
        }
    }
    if words(rest).any(|w| wide(w).is_none()) {
        return Err("BadLine");
    }
    words(rest).map(|w| count(w, MAX_JOBS as i64)).collect()
}

/// The first word of a text and what follows it.
pub fn split_word(text: &[u8]) -> (&[u8], &[u8]) {
    let start = skip_space(text, 0);
    let length = text[start..].iter().take_while(|&&b| !is_space(b)).count();
    (&text[start..start + length], &text[start + length..])
}

pub fn certificate(line: &[u8]) -> Named<Certificate> {
    const BAD: &str = "BadLine";
    let (word, rest) = split_word(line);
    if word != b"cert" {
        return Err(BAD);
    }
    let (kind, rest) = split_word(rest);
    let alone = words(rest).next().is_none();
    let only = || {
        let mut parts = words(rest);
        parts.next().filter(|_| parts.next().is_none()).ok_or(BAD)
    };
    Ok(match kind {
        b"pairs" if alone => Certificate::Pairs,
        b"load" if alone => Certificate::Load,
        b"machine" => Certificate::Machine(count(only()?, MAX_MACHINES)?),
        b"job" => Certificate::OneJob(count(only()?, MAX_JOBS as i64)?),
        b"last" => Certificate::Last(job_list(rest)?),
        b"window" => Certificate::Window(job_list(rest)?),
        b"ranks" => Certificate::Ranks(job_list(rest)?),
        b"split" => {
            let (side, rest) = split_word(rest);
            let first = match side {
                b"first" => true,
                b"second" => false,
                _ => return Err(BAD),
            };
            let (delta, rest) = split_word(rest);
            if wide(delta).is_none() {
                return Err(BAD);
            }
            let side = job_list(rest);
            if side.as_ref().is_err_and(|name| *name == BAD)
                && words(rest).any(|w| wide(w).is_none())
            {
                return Err(BAD);
            }
            let delta = integer(delta, LIMIT as u64, 0)?;
            Certificate::Split {
                side: side?,
                delta,
                first,
            }
        }
        _ => return Err(BAD),
    })
}

pub fn read_answer(source: &mut Source) -> Res<Sheet> {
    #[derive(PartialEq)]
    enum Place {
        Heading,
        Problem,
        Jobs,
        Machines,
        Value,
        Pieces,
        End,
        Over,
    }
    use Place::*;
    let mut place = Heading;
    let (mut line, mut at) = (0, 0);
    let mut problem = None;
    let (mut jobs, mut machines, mut value) = (0, 0, 0);
    let mut pieces: Vec<Piece> = Vec::new();
    let mut evidence = None;
    loop {
        if at == source.ready {
            if !source.more(is_feed)? {
                break;
            }
            at = 0;
        }
        line += 1;
        let text = source.text();
        if place == Pieces {
            if let Some((piece, next)) = quick_piece(text, at) {
                pieces.push(piece);
                at = next;
                continue;
            }
        }
        let end = line_end(text, at);
        let content = &text[at..end];
        at = end + 1;
        let (first, rest) = split_word(content);
        if first.is_empty() || first[0] == b'#' {
            continue;
        }
        let only = |name: &[u8]| {
            let mut parts = words(rest);
            let word = parts.next().filter(|_| parts.next().is_none());
            word.filter(|w| first == name && wide(w).is_some())
                .ok_or("BadLine")
        };
        let mut judge = || -> Named<Place> {
            Ok(match place {
                Heading if words(content).eq([b"answer" as &[u8], b"1"]) => Problem,
                Problem if first == b"problem" => {
                    let text = rest.strip_suffix(b"\r").unwrap_or(rest);
                    problem = Some(notation(text).map_err(|_| "BadNotation")?);
                    Jobs
                }
                Jobs => {
                    jobs = count(only(b"jobs")?, MAX_JOBS as i64)?;
                    Machines
                }
                Machines => {
                    machines = count(only(b"machines")?, MAX_MACHINES)?;
                    Value
                }
                Value => {
                    value = integer(only(b"value")?, i64::MAX as u64, 1)?;
                    Pieces
                }
                Pieces if first == b"piece" => {
                    let parts: Vec<&[u8]> = words(content).take(6).collect();
                    pieces.push(slow_piece(&parts)?);
                    Pieces
                }
                Pieces => {
                    evidence = Some(certificate(content)?);
                    End
                }
                End if first == b"end" && words(rest).next().is_none() => Over,
                _ => return Err("BadLine"),
            })
        };
        match judge() {
            Ok(next) => place = next,
            Err("BadNotation") => return refused("BadNotation"),
            Err(name) => return at_line(name, line),
        }
    }
    match (problem, evidence) {
        (Some(problem), Some(certificate)) if place == Over => Ok(Sheet {
            problem,
            jobs,
            machines,
            value,
            pieces,
            certificate,
        }),
        _ => refused("EndsEarly"),
    }
}

pub fn answer_text(source: &mut Source) -> Res<Sheet> {
    reading(source, read_answer).map_err(answer_fault)
}

pub fn answer_fault(fault: Fault) -> Fault {
    match fault {
        Fault::Refused(text) => Fault::Refused(format!("answer {text}")),
        other => other,
    }
}
