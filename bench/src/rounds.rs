//! One sharing round.

use crate::{require, require_rows, Answer, MOST_GIGAJOULES, MOST_ROWS};

const UNIT: u64 = 1_000_000;
const TOP: u64 = 1_000_000_000_000;
const MOST_CAPACITY: u32 = 2_000_000;

#[inline]
fn share(weight: u32, need: u32, level: u64) -> u64 {
    (weight as u64 * level / UNIT).min(need as u64)
}

/// What a level gives all rows.
fn total(weights: &[u32], needs: &[u32], level: u64) -> u64 {
    weights.iter().zip(needs).map(|(&weight, &need)| share(weight, need, level)).sum()
}

/// What the rows that are full at a level need, and the weights of the others.
fn full_and_short(weights: &[u32], needs: &[u32], level: u64) -> (u64, u64) {
    weights.iter().zip(needs).fold((0, 0), |(full, short), (&weight, &need)| {
        let is_full = weight as u64 * level >= need as u64 * UNIT;
        (full + if is_full { need as u64 } else { 0 }, short + if is_full { 0 } else { weight as u64 })
    })
}

/// The largest level whose shares add up to at most the capacity.
///
/// Were the short rows without end, `(capacity - full) / short` would spend what the full ones leave. That level always fits, so
/// it is raised until it stays; rounding then hides less than one gigajoule a row, which bounds the rest of the search.
pub fn level(capacity: u32, weights: &[u32], needs: &[u32]) -> u64 {
    let capacity = capacity as u64;
    let asked: u64 = weights.iter().zip(needs).map(|(&weight, &need)| if weight > 0 { need as u64 } else { 0 }).sum();
    if asked <= capacity {
        return TOP;
    }
    // a row with a weight is short at every level that fits
    let mut fits = 0;
    loop {
        let (full, short) = full_and_short(weights, needs, fits);
        let spent = (capacity - full) * UNIT / short;
        if spent > fits {
            fits = spent;
            continue;
        }
        let beyond = (fits + weights.len() as u64 * UNIT / short + 1).min(TOP);
        if total(weights, needs, beyond) > capacity {
            return bisect(capacity, weights, needs, fits, beyond);
        }
        fits = beyond;
    }
}

fn bisect(capacity: u64, weights: &[u32], needs: &[u32], mut fits: u64, mut beyond: u64) -> u64 {
    while fits + 1 < beyond {
        let middle = (fits + beyond) / 2;
        if total(weights, needs, middle) <= capacity {
            fits = middle;
        } else {
            beyond = middle;
        }
    }
    fits
}

/// The level, and each row's share to the front of a list. The rows are within their bounds.
pub fn hold(capacity: u32, weights: &[u32], needs: &[u32], shares: &mut [u32]) -> u64 {
    let level = level(capacity, weights, needs);
    for ((given, &weight), &need) in shares.iter_mut().zip(weights).zip(needs) {
        *given = share(weight, need, level) as u32;
    }
    level
}

/// A round called alone.
pub fn share_round(capacity: u32, weights: &[u32], needs: &[u32], shares: &mut [u32]) -> Answer<u64> {
    require(weights.len() == needs.len(), 9, 0)?;
    require(capacity <= MOST_CAPACITY, 3, 0)?;
    require(weights.len() <= MOST_ROWS, 3, 0)?;
    require_rows(weights, MOST_GIGAJOULES)?;
    require_rows(needs, MOST_GIGAJOULES)?;
    require(weights.len() <= shares.len(), 7, 0)?;
    Ok(hold(capacity, weights, needs, shares))
}
