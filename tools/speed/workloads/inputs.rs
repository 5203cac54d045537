//! The rounds of the workloads, and the numbers and texts that they take. A look-up at one key after the other follows a
//! sequence of states that no compiler foresees.

// The sum of what each round finds, by its number and the sum so far.
macro_rules! in_rounds {
    ($rounds:ident, |$round:ident, $sum:ident| $found:expr) => {{
        let mut $sum = 0u64;
        for $round in 0..$rounds {
            let found = $found;
            $sum = $sum.wrapping_add(found);
        }
        $sum
    }};
}

// The same, by the state of each round in the place of its number.
macro_rules! in_states {
    ($rounds:ident, |$state:ident, $sum:ident| $found:expr) => {{
        let mut $state = $crate::inputs::SEED;
        $crate::inputs::in_rounds!($rounds, |_round, $sum| {
            $state = $crate::inputs::next($state);
            $found
        })
    }};
}

pub(crate) use {in_rounds, in_states};

/// The state that each sequence starts from.
pub const SEED: u64 = 88172645463325252;

/// The state after `state`.
#[inline]
pub fn next(state: u64) -> u64 {
    state
        .wrapping_mul(6364136223846793005)
        .wrapping_add(1442695040888963407)
}

/// The number of `state` that is below `N`, a power of two.
#[inline]
pub fn below<const N: usize>(state: u64) -> u64 {
    (state >> 33) & (N as u64).wrapping_sub(1)
}

/// The number of `state` that is above each number of `below`.
#[inline]
pub fn beyond(state: u64) -> u64 {
    (state >> 33) | 1 << 40
}

/// An odd number for a round, where the salt is 0.
#[inline]
pub fn odd(round: u64, salt: u64) -> u64 {
    (round << 1).wrapping_add(salt).wrapping_add(1)
}

/// The key of `index` from the odd number of a round. Those of 64 indices in a row are pairwise unequal, which no compiler
/// knows, so that none leaves out a comparison.
#[inline]
pub fn key_of(index: u64, odd: u64) -> u64 {
    odd.rotate_left((index & 63) as u32)
}

/// A value to store at the key of `index`.
#[inline]
pub fn value_of(index: u64) -> u64 {
    index.wrapping_mul(0x9e37_79b9_7f4a_7c15)
}

/// The word of `index`. Those of 64 indices in a row are pairwise unequal.
#[inline]
pub fn word(index: u64) -> &'static str {
    WORDS[(index & 63) as usize]
}

const WORDS: [&'static str; 64] = [
    "id", "class", "href", "src", "alt", "title", "name", "type", "value", "style", "width", "height", "lang", "dir",
    "rel", "target", "media", "content", "charset", "action", "method", "label", "for", "placeholder", "pattern", "min",
    "max", "step", "rows", "cols", "wrap", "list", "accept", "host", "age", "date", "etag", "from", "via", "vary",
    "allow", "range", "server", "cookie", "expires", "pragma", "referer", "upgrade", "warning", "location",
    "user-agent", "connection", "content-type", "content-length", "last-modified", "cache-control", "authorization",
    "if-none-match", "accept-encoding", "accept-language", "transfer-encoding", "x-request-id", "x-forwarded-for",
    "content-language",
];
