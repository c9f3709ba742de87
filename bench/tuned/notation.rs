//! Three-field notation.
use crate::*;

pub const CONDITIONS: [&str; 7] = ["rj", "prec", "prmp", "prmu", "nwt", "block", "rcrc"];
pub const RJ: u8 = 1;
pub const PREC: u8 = 2;
pub const PRMP: u8 = 4;

#[derive(Clone, Copy, PartialEq, Eq)]
pub struct Problem {
    pub env: u8,
    pub count: Option<u32>,
    pub conditions: u8,
    pub goal: &'static str,
}

pub fn environment(word: &[u8]) -> Option<(u8, Option<u32>)> {
    match word {
        b"1" => Some((b'1', None)),
        [env @ (b'P' | b'Q' | b'R' | b'F' | b'O' | b'J'), rest @ ..] => match rest {
            b"" | b"m" => Some((*env, None)),
            [b'1'..=b'9', ..] if rest.len() <= 4 => {
                let (_, count) = wide(rest)?;
                (count <= MAX_MACHINES as u64).then_some((*env, Some(count as u32)))
            }
            _ => None,
        },
        _ => None,
    }
}

pub fn condition(word: &[u8]) -> Option<u8> {
    let name = match word {
        b"r_j" => "rj",
        b"pmtn" => "prmp",
        _ => std::str::from_utf8(word).ok()?,
    };
    CONDITIONS.iter().position(|c| *c == name).map(|k| 1 << k)
}

pub fn goal(word: &[u8]) -> Option<&'static str> {
    Some(match word {
        b"Cmax" | b"C_max" => "Cmax",
        b"Lmax" | b"L_max" => "Lmax",
        b"hmax" | b"h_max" => "hmax",
        b"sumC" | b"sumCj" | b"sumC_j" => "sumC",
        b"sumwC" | b"sumwjCj" | b"sumw_jC_j" => "sumwC",
        b"sumT" | b"sumTj" | b"sumT_j" => "sumT",
        b"sumwT" | b"sumwjTj" | b"sumw_jT_j" => "sumwT",
        b"sumU" | b"sumUj" | b"sumU_j" => "sumU",
        b"sumwU" | b"sumwjUj" | b"sumw_jU_j" => "sumwU",
        _ => return None,
    })
}

/// The problem of a notation, or the byte of the first token that isn't expected.
pub fn notation(text: &[u8]) -> Result<Problem, usize> {
    let mut at = 0;
    let mut token = || {
        while at < text.len() && matches!(text[at], b' ' | b'\t') {
            at += 1;
        }
        let start = at;
        while at < text.len() && (text[at].is_ascii_alphanumeric() || text[at] == b'_') {
            at += 1;
        }
        if at == start && at < text.len() {
            at += 1;
        }
        (start, &text[start..at])
    };
    let (place, word) = token();
    let (env, count) = environment(word).ok_or(place)?;
    let (place, word) = token();
    if word != b"|" {
        return Err(place);
    }
    let mut conditions = 0;
    let (mut place, mut word) = token();
    if word != b"|" {
        loop {
            let bit = condition(word)
                .filter(|b| conditions & b == 0)
                .ok_or(place)?;
            conditions |= bit;
            (place, word) = token();
            if word == b"|" {
                break;
            }
            if word != b"," {
                return Err(place);
            }
            (place, word) = token();
        }
    }
    let (place, word) = token();
    let goal = goal(word).ok_or(place)?;
    let (place, word) = token();
    if !word.is_empty() {
        return Err(place);
    }
    Ok(Problem {
        env,
        count,
        conditions,
        goal,
    })
}

pub fn notation_text(problem: &Problem) -> String {
    let mut text = String::from(problem.env as char);
    if let Some(count) = problem.count {
        text += &count.to_string();
    }
    let named: Vec<&str> = (0..7)
        .filter(|k| problem.conditions >> k & 1 == 1)
        .map(|k| CONDITIONS[k])
        .collect();
    text + "|" + &named.join(",") + "|" + problem.goal
}
