//! A general solver of equations over GF(2), in which every value is a row of bytes.

use super::stripe::xor;

/// The XOR of the unknowns whose bits are set in `unknowns` is `value`.
#[derive(Clone, Debug)]
pub struct Equation {
    pub unknowns: u64,
    pub value: Vec<u8>,
}

impl Equation {
    fn has(&self, unknown: usize) -> bool {
        self.unknowns >> unknown & 1 == 1
    }

    /// No unknown is left, yet the value is not zero.
    fn is_contradiction(&self) -> bool {
        self.unknowns == 0 && self.value.iter().any(|&byte| byte != 0)
    }
}

/// What elimination found: the values, and whether they are the only ones.
#[derive(Debug)]
pub struct Solution {
    pub values: Vec<Vec<u8>>,
    pub is_only: bool,
}

/// Solves for `count` unknowns of `width` bytes; `None` if the equations contradict each other.
pub fn solve(mut equations: Vec<Equation>, count: usize, width: usize) -> Option<Solution> {
    let mut values = vec![None; count];
    let mut used = 0;
    for (unknown, value) in values.iter_mut().enumerate() {
        if let Some(found) = (used..equations.len()).find(|&i| equations[i].has(unknown)) {
            equations.swap(used, found);
            eliminate(&mut equations, used, unknown);
            *value = Some(used);
            used += 1;
        }
    }
    if equations.iter().any(Equation::is_contradiction) {
        return None;
    }
    let is_only = used == count;
    let value_of = |row: Option<usize>| row.map_or(vec![0; width], |i| equations[i].value.clone());
    Some(Solution { values: values.into_iter().map(value_of).collect(), is_only })
}

/// Takes `unknown` out of every equation but the one at `kept`.
fn eliminate(equations: &mut [Equation], kept: usize, unknown: usize) {
    let pivot = equations[kept].clone();
    for (i, equation) in equations.iter_mut().enumerate() {
        if i != kept && equation.has(unknown) {
            equation.unknowns ^= pivot.unknowns;
            xor(&mut equation.value, &pivot.value);
        }
    }
}
