//! Sets of moments as words: bit t stands for moment t.

/// The moments from t on.
pub fn from(t: usize) -> u64 {
    if t > 63 {
        0
    } else {
        u64::MAX << t
    }
}

/// The moments up to t.
pub fn upto(t: usize) -> u64 {
    if t >= 63 {
        u64::MAX
    } else {
        (1 << (t + 1)) - 1
    }
}

/// The moments a to b; none where a > b.
pub fn range(a: usize, b: usize) -> u64 {
    if a > b {
        0
    } else {
        from(a) & upto(b)
    }
}

/// The moments y - most to y - least that there are.
pub fn range_before(y: usize, least: usize, most: usize) -> u64 {
    if y < least {
        0
    } else {
        range(y.saturating_sub(most), y - least)
    }
}

/// The least moment of a set; 64 where it is empty.
pub fn low(set: u64) -> usize {
    set.trailing_zeros() as usize
}

/// The greatest moment of a set that is not empty.
pub fn high(set: u64) -> usize {
    63 - set.leading_zeros() as usize
}

pub fn has(set: u64, t: usize) -> bool {
    set >> t & 1 == 1
}

/// The moments of a set, ascending.
pub fn each(mut set: u64) -> impl Iterator<Item = usize> {
    std::iter::from_fn(move || {
        if set == 0 {
            return None;
        }
        let t = low(set);
        set &= set - 1;
        Some(t)
    })
}
