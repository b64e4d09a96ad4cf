//! The parity rule, and the calls that follow it directly: encode, check, the two writes.

use std::ops::Range;

use super::shape::Shape;
use crate::mistakes::{right, wrong};

/// A shape known to be good, in numbers that index bytes.
#[derive(Clone, Copy, PartialEq, Eq, Debug)]
pub struct Code {
    pub m: usize,
    pub n: usize,
    pub w: usize,
}

/// A symbol is named by its column and its height; height 0 is the parity.
#[derive(Clone, Copy, PartialEq, Eq, Debug)]
pub struct Symbol {
    pub column: usize,
    pub height: usize,
}

/// XORs `from` into `into`, byte by byte.
pub fn xor(into: &mut [u8], from: &[u8]) {
    for (a, b) in into.iter_mut().zip(from) {
        *a ^= b;
    }
}

impl Code {
    /// The code of a good shape.
    pub fn of(shape: Shape) -> Code {
        Code { m: shape.m as usize, n: shape.n as usize, w: shape.w as usize }
    }

    pub fn column_bytes(self) -> usize {
        self.m * self.w
    }

    /// The bytes of a column.
    pub fn column(self, column: usize) -> Range<usize> {
        column * self.column_bytes()..(column + 1) * self.column_bytes()
    }

    /// The bytes of a symbol.
    pub fn place(self, symbol: Symbol) -> Range<usize> {
        let row = self.m - 1 - symbol.height;
        let start = (symbol.column * self.m + row) * self.w;
        start..start + self.w
    }

    /// The column `steps` above, counted modulo n.
    pub fn up(self, column: usize, steps: usize) -> usize {
        (column + steps) % self.n
    }

    /// The column `steps` below, counted modulo n.
    pub fn down(self, column: usize, steps: usize) -> usize {
        (column + self.n - steps % self.n) % self.n
    }

    /// The members of chain p, its parity first.
    pub fn chain(self, p: usize) -> Vec<Symbol> {
        let mut members = vec![Symbol { column: p, height: 0 }];
        for height in 1..self.m {
            members.push(Symbol { column: self.down(p, height), height });
            members.push(Symbol { column: self.up(p, height), height });
        }
        members
    }

    /// The numbers of the chains a symbol belongs to.
    pub fn chains_of(self, symbol: Symbol) -> Vec<usize> {
        (0..self.n).filter(|&p| self.chain(p).contains(&symbol)).collect()
    }

    /// The parity of column p as the rule gives it.
    pub fn computed_parity(self, stripe: &[u8], p: usize) -> Vec<u8> {
        let mut sum = vec![0; self.w];
        for symbol in &self.read_for_parity(p) {
            xor(&mut sum, &stripe[self.place(*symbol)]);
        }
        sum
    }

    /// The information symbols of chain p.
    fn read_for_parity(self, p: usize) -> Vec<Symbol> {
        let mut read = self.chain(p).split_off(1);
        if wrong("chain-as-printed") {
            for pair in read.chunks_mut(2) {
                pair[1].column = self.up(p, 2 * (self.m - 1) - pair[1].height);
            }
        }
        if wrong("chain-does-not-wrap") {
            read.retain(|symbol| symbol.column.abs_diff(p) == symbol.height);
        }
        if wrong("chain-without-top-height") {
            read.retain(|symbol| symbol.height < self.m - 1);
        }
        read
    }

    /// How far the stored parity of chain p is from the computed one: zeros if the rule holds.
    pub fn difference(self, stripe: &[u8], p: usize) -> Vec<u8> {
        let mut difference = self.computed_parity(stripe, p);
        xor(&mut difference, &stripe[self.place(Symbol { column: p, height: 0 })]);
        difference
    }

    /// Whether chain p breaks the rule.
    pub fn is_broken(self, stripe: &[u8], p: usize) -> bool {
        self.difference(stripe, p).iter().any(|&byte| byte != 0)
    }
}

/// Sets every parity symbol by the rule.
pub fn encode(code: Code, stripe: &mut [u8]) {
    let columns = right(code.n, &[("encode-forgets-last-column", code.n - 1)]);
    for p in 0..columns {
        let parity = code.computed_parity(stripe, p);
        let column = right(p, &[("encode-parity-of-next-column", code.up(p, 1))]);
        stripe[code.place(Symbol { column, height: 0 })].copy_from_slice(&parity);
    }
}

/// The number of broken chains, and of differing bits over all chains.
pub fn check(code: Code, stripe: &[u8]) -> (u64, u64) {
    let (mut broken, mut bits) = (0, 0);
    for p in 0..code.n {
        let difference = code.difference(stripe, p);
        broken += u64::from(difference.iter().any(|&byte| byte != 0));
        bits += counted(&difference);
    }
    if wrong("check-bits-cut-to-16") {
        bits &= 0xFFFF;
    }
    if wrong("check-broken-without-chain-0") {
        broken -= u64::from(code.is_broken(stripe, 0));
    }
    (broken, bits)
}

/// The bits in which a chain differs.
fn counted(difference: &[u8]) -> u64 {
    if wrong("check-counts-bytes") {
        return difference.iter().filter(|&&byte| byte != 0).count() as u64;
    }
    difference.iter().map(|byte| u64::from(byte.count_ones())).sum()
}

/// Replaces one information symbol and XORs the change into the parity of its chains.
pub fn small_write(code: Code, stripe: &mut [u8], symbol: Symbol, bytes: &[u8]) {
    let mut change = stripe[code.place(symbol)].to_vec();
    xor(&mut change, bytes);
    raw_store(code, stripe, symbol, bytes);
    let mut chains = code.chains_of(symbol);
    if wrong("small-write-one-parity") {
        chains.pop();
    }
    for p in chains {
        let parity = code.place(Symbol { column: p, height: 0 });
        if wrong("small-write-heals") {
            let computed = code.computed_parity(stripe, p);
            stripe[parity].copy_from_slice(&computed);
        } else {
            xor(&mut stripe[parity], &change);
        }
    }
}

/// Replaces one symbol and touches nothing else.
pub fn raw_store(code: Code, stripe: &mut [u8], symbol: Symbol, bytes: &[u8]) {
    stripe[code.place(symbol)].copy_from_slice(bytes);
}
