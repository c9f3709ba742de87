//! Numbers in texts.
use crate::*;

/// The value of eight digits, the first of them in the lowest byte.
#[inline(always)]
pub fn eight_digits(x: u64) -> u64 {
    let x = x.wrapping_mul(2561) >> 8 & 0x00ff_00ff_00ff_00ff;
    let x = x.wrapping_mul(6_553_601) >> 16 & 0x0000_ffff_0000_ffff;
    x.wrapping_mul(42_949_672_960_001) >> 32
}

/// Digits from `first` on, at most 19: the value and the place after them.
#[inline(always)]
pub fn digits(text: &[u8], first: usize) -> Option<(u64, usize)> {
    let (mut value, mut at) = (0u64, first);
    if let Some(eight) = text.get(first..first + 8) {
        let x = u64::from_le_bytes(eight.try_into().unwrap()) ^ 0x3030_3030_3030_3030;
        let other = (x.wrapping_add(0x7676_7676_7676_7676) | x) & 0x8080_8080_8080_8080;
        if other != 0 {
            let count = other.trailing_zeros() / 8;
            return (count > 0)
                .then(|| (eight_digits(x << (64 - 8 * count)), first + count as usize));
        }
        (value, at) = (eight_digits(x), first + 8);
    }
    while at < text.len() {
        let d = text[at].wrapping_sub(b'0');
        if d > 9 {
            break;
        }
        value = value.wrapping_mul(10).wrapping_add(d as u64);
        at += 1;
    }
    (at > first && at - first <= 19).then_some((value, at))
}

/// A number within the limit, of at most 19 digits.
#[inline(always)]
pub fn number(text: &[u8], at: usize) -> Option<(i64, usize)> {
    let negative = text[at] == b'-';
    let (value, next) = digits(text, at + negative as usize)?;
    if value > LIMIT as u64 {
        return None;
    }
    Some((
        if negative {
            -(value as i64)
        } else {
            value as i64
        },
        next,
    ))
}

/// A whole word as a number of any length: its sign and its size, at most 2^64 - 1.
pub fn wide(word: &[u8]) -> Option<(bool, u64)> {
    let negative = word.first() == Some(&b'-');
    let digits = &word[negative as usize..];
    if digits.is_empty() || !digits.iter().all(u8::is_ascii_digit) {
        return None;
    }
    let size = digits.iter().fold(0u64, |v, &d| {
        v.saturating_mul(10).saturating_add((d - b'0') as u64)
    });
    Some((negative && size > 0, size))
}

pub fn signed(negative: bool, size: u64) -> i64 {
    if negative {
        (size as i64).wrapping_neg()
    } else {
        size as i64
    }
}

/// A word's number within the limit, or the name of its fault.
pub fn judged(word: &[u8], may_be_negative: bool) -> Result<i64, &'static str> {
    let (negative, size) = wide(word).ok_or("BadNumber")?;
    if size > LIMIT as u64 {
        return Err("NumberTooLarge");
    }
    if negative && !may_be_negative {
        return Err("Negative");
    }
    Ok(signed(negative, size))
}
