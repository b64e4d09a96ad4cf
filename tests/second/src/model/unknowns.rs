//! Rebuild and locate, by elimination: symbols are unknowns and every chain is an equation.

use super::gf2::{solve, Equation, Solution};
use super::stripe::{Code, Symbol};
use crate::mistakes::wrong;

/// Where the damage of a stripe lies.
#[derive(Clone, Copy, PartialEq, Eq, Debug)]
pub enum Located {
    Sound,
    Column(usize),
    More,
}

/// Every symbol of the columns, in the order in which they are numbered as unknowns.
pub fn symbols_of(code: Code, columns: &[usize]) -> Vec<Symbol> {
    let of_column = |&column| (0..code.m).map(move |height| Symbol { column, height });
    columns.iter().flat_map(of_column).collect()
}

/// The bits of those unknowns that are members of chain p.
fn unknowns_in(code: Code, unknowns: &[Symbol], p: usize) -> u64 {
    let chain = code.chain(p);
    let is_member = |&i: &usize| chain.contains(&unknowns[i]);
    (0..unknowns.len()).filter(is_member).fold(0, |bits, i| bits | 1 << i)
}

/// The symbols of the lost columns from the survivors; `None` if the survivors disagree.
pub fn lost_symbols(code: Code, stripe: &[u8], lost: &[usize]) -> Option<Solution> {
    let unknowns = symbols_of(code, lost);
    let mut survivors = stripe.to_vec();
    for &column in lost {
        survivors[code.column(column)].fill(0);
    }
    let equation = |p| Equation {
        unknowns: unknowns_in(code, &unknowns, p),
        value: code.difference(&survivors, p),
    };
    solve((0..code.n).map(equation).collect(), unknowns.len(), code.w)
}

/// Whether the surviving columns can all be right.
pub fn survivors_agree(code: Code, stripe: &[u8], lost: &[usize]) -> bool {
    lost_symbols(code, stripe, lost).is_some()
}

/// Writes the lost columns from the survivors, which agree.
pub fn rebuild(code: Code, stripe: &mut [u8], lost: &[usize]) {
    let Some(solution) = lost_symbols(code, stripe, lost) else {
        return;
    };
    for (symbol, bytes) in symbols_of(code, lost).into_iter().zip(solution.values) {
        if wrong("rebuild-keeps-parity") && symbol.height == 0 {
            continue;
        }
        stripe[code.place(symbol)].copy_from_slice(&bytes);
    }
}

/// Whether some change within the column alone takes every difference away.
fn explains(code: Code, differences: &[Vec<u8>], column: usize) -> bool {
    let mut unknowns = symbols_of(code, &[column]);
    if wrong("locate-own-parity-must-agree") {
        unknowns.retain(|symbol| symbol.height > 0);
    }
    let equation =
        |p| Equation { unknowns: unknowns_in(code, &unknowns, p), value: differences[p].clone() };
    let mut equations: Vec<Equation> = (0..code.n).map(equation).collect();
    if wrong("locate-ignores-chains-outside") {
        equations.retain(|equation| equation.unknowns != 0);
    }
    if wrong("locate-compares-first-byte") {
        equations.iter_mut().for_each(|equation| equation.value.truncate(1));
    }
    if wrong("locate-forgets-top-height") {
        equations.remove(code.up(column, code.m - 1));
    }
    solve(equations, unknowns.len(), code.w).is_some()
}

/// The first column that explains every broken chain.
pub fn locate(code: Code, stripe: &[u8]) -> Located {
    let differences: Vec<Vec<u8>> = (0..code.n).map(|p| code.difference(stripe, p)).collect();
    let is_broken = |difference: &Vec<u8>| difference.iter().any(|&byte| byte != 0);
    let Some(broken) = differences.iter().position(is_broken) else {
        return Located::Sound;
    };
    match (0..code.n).find(|&column| explains(code, &differences, column)) {
        Some(column) => Located::Column(column),
        None if wrong("locate-names-one-of-two") => Located::Column(broken),
        None => Located::More,
    }
}
