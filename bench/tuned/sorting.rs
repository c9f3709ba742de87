//! Sorts of packed keys.
use crate::*;

pub const INDEX_BITS: u32 = 17;
pub const INDEX: u64 = (1 << INDEX_BITS) - 1;

/// Distinct keys in the order of (value, index), with the index in their low bits.
pub fn keys(values: &[i64]) -> Vec<u64> {
    let least = values.iter().copied().min().unwrap_or(0);
    let most = values.iter().copied().max().unwrap_or(0);
    let pack = |value: u64, j: usize| value << INDEX_BITS | j as u64;
    if (most - least) >> (64 - INDEX_BITS - 1) == 0 {
        let each = values.iter().enumerate();
        return each.map(|(j, &v)| pack((v - least) as u64, j)).collect();
    }
    let mut order: Vec<(i64, u32)> = values
        .iter()
        .enumerate()
        .map(|(j, &v)| (v, j as u32))
        .collect();
    order.sort_unstable();
    let mut keys = vec![0; values.len()];
    for (rank, &(_, j)) in order.iter().enumerate() {
        keys[j as usize] = pack(rank as u64, j as usize);
    }
    keys
}

pub fn index(key: u64) -> usize {
    (key & INDEX) as usize
}

/// The indices by rising value, ties by rising index.
pub fn sorted(values: &[i64]) -> Vec<u32> {
    let mut keys = keys(values);
    keys.sort_unstable();
    keys.iter().map(|&k| index(k) as u32).collect()
}

/// Smith's order: greater weight/time first, ties by index.
pub fn smith(task: &Task) -> Vec<u32> {
    if task.class.kind == PlainSum {
        return sorted(&task.p);
    }
    let greatest_p = task.p.iter().copied().max().unwrap_or(0);
    let greatest_w = task.weight.iter().copied().max().unwrap_or(0);
    // Times over weights, scaled so far up that different ratios differ in their whole parts.
    let shift = 2 * (64 - greatest_w.leading_zeros());
    if 64 - greatest_p.leading_zeros() + shift < 46 {
        let ratio = |(&p, &w): (&i64, &i64)| if w == 0 { 1 << 46 } else { (p << shift) / w };
        let ratios: Vec<i64> = task.p.iter().zip(&task.weight).map(ratio).collect();
        return sorted(&ratios);
    }
    // Each product is within the limit, since that of the sums is.
    let each = task.p.iter().zip(&task.weight).enumerate();
    let mut order: Vec<(i64, i64, u32)> = each.map(|(j, (&p, &w))| (p, w, j as u32)).collect();
    order.sort_unstable_by(|x, y| (x.0 * y.1, x.2).cmp(&(y.0 * x.1, y.2)));
    order.iter().map(|x| x.2).collect()
}
