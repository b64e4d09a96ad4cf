//! The outer-chain order, as its text says it: it decides what fill yields.

use super::stripe::{xor, Code, Symbol};
use crate::mistakes::{right, wrong};

/// The lost columns in the order of the walk; with one lost there is no second.
#[derive(Clone, Copy, PartialEq, Eq, Debug)]
pub struct Order {
    pub first: usize,
    pub second: Option<usize>,
}

/// Which of two lost columns is first: the one with the shorter walk upward to the other.
pub fn order(code: Code, lost: &[usize]) -> Order {
    if lost.len() == 1 {
        return Order { first: lost[0], second: None };
    }
    let smaller = lost[0].min(lost[1]);
    let larger = lost[0].max(lost[1]);
    let walk_of_smaller = larger - smaller;
    let walk_of_larger = code.n - walk_of_smaller;
    let smaller_is_first = right(
        walk_of_smaller <= walk_of_larger,
        &[
            ("fill-tie-larger-first", walk_of_smaller < walk_of_larger),
            ("fill-first-by-number", true),
            ("fill-first-as-named", lost[0] == smaller),
        ],
    );
    match smaller_is_first {
        true => Order { first: smaller, second: Some(larger) },
        false => Order { first: larger, second: Some(smaller) },
    }
}

impl Order {
    pub fn is_lost(self, column: usize) -> bool {
        column == self.first || Some(column) == self.second
    }

    /// The chain a lost symbol is solved from.
    fn chain_for(self, code: Code, lost: Symbol) -> usize {
        if lost.height == 0 {
            return lost.column;
        }
        let is_alone = self.second.is_none();
        if Some(lost.column) == self.second || is_alone && wrong("fill-one-lost-chain-above") {
            code.up(lost.column, lost.height)
        } else {
            code.down(lost.column, lost.height)
        }
    }

    /// The other members of the chain a lost symbol is solved from.
    pub fn others(self, code: Code, lost: Symbol) -> Vec<Symbol> {
        let chain = code.chain(self.chain_for(code, lost));
        chain.into_iter().filter(|member| *member != lost).collect()
    }

    /// Solves a lost symbol; lost members of its chain are greater in height and solved first.
    pub fn solve(self, code: Code, stripe: &[u8], lost: Symbol) -> Vec<u8> {
        let mut sum = vec![0; code.w];
        for member in self.others(code, lost) {
            let mut is_solved = self.is_lost(member.column) && member.height > lost.height;
            if lost.height == 0 && wrong("fill-parity-from-stale-column") {
                is_solved = false;
            }
            match is_solved {
                true => xor(&mut sum, &self.solve(code, stripe, member)),
                false => xor(&mut sum, &stripe[code.place(member)]),
            }
        }
        sum
    }
}

/// The bytes of a lost column, by the outer-chain order.
pub fn lost_column(code: Code, stripe: &[u8], lost: &[usize], column: usize) -> Vec<u8> {
    let order = order(code, lost);
    let heights = (0..code.m).rev();
    heights.flat_map(|height| order.solve(code, stripe, Symbol { column, height })).collect()
}
