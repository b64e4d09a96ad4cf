//! A sweep over the refusals: for every kind each answer, and each pair of reasons at once.

use super::calls::good;
use super::{shapes, spoil};
use crate::model::call::{Call, Kind};
use crate::model::reasons::{lowest, reasons};
use crate::random::Random;

/// The reasons that can apply to a call at once; 9 is looked at only beside 5.
pub const REASONS: [(Kind, &[u8]); 10] = [
    (Kind::Encode, &[1, 2, 3, 4]),
    (Kind::Check, &[1, 2, 3, 4]),
    (Kind::Locate, &[1, 2, 3, 4]),
    (Kind::SmallWrite, &[1, 2, 3, 4, 6, 8]),
    (Kind::RawStore, &[1, 2, 3, 4, 6, 8]),
    (Kind::Rebuild, &[1, 2, 3, 4, 5, 6, 7]),
    (Kind::Fill, &[1, 2, 3, 4, 6, 7, 8]),
    (Kind::Choose, &[1, 2, 3, 4, 6, 7, 8]),
    (Kind::Column, &[1, 2, 3, 4, 6]),
    (Kind::Prices, &[1, 2, 3]),
];

/// Every kind with every pair of its reasons, lower and higher; a reason is also its own pair.
pub fn pairs() -> Vec<(Kind, u8, u8)> {
    let mut pairs = Vec::new();
    for (kind, reasons) in REASONS {
        for &high in reasons {
            let lower = reasons.iter().filter(|low| **low <= high);
            pairs.extend(lower.map(|&low| (kind, low, high)));
        }
    }
    pairs
}

/// The call of the sweep with this number; numbers beyond the last begin again.
pub fn call(random: &mut Random, number: u64) -> Call {
    let pairs = pairs();
    let (kind, low, high) = pairs[(number % pairs.len() as u64) as usize];
    loop {
        let shape = shapes::small(random);
        let mut call = good(random, kind, shape);
        for reason in if low == high { vec![low] } else { vec![high, low] } {
            spoil::spoil_for(random, &mut call, reason);
        }
        let applying = reasons(&call);
        if lowest(&applying) == low && applying.contains(&high) {
            return call;
        }
    }
}
