//! One call of the public functions, with everything lent to it, and what comes of it.

use super::outer;
use super::reasons::{lowest, reasons};
use super::shape::{stock, Shape};
use super::stripe::{check, encode, raw_store, small_write, Code, Symbol};
use super::unknowns::{locate, rebuild, survivors_agree, Located};
use crate::mistakes::{right, wrong};

#[derive(Clone, Copy, PartialEq, Eq, PartialOrd, Ord, Debug)]
pub enum Kind {
    Encode = 1,
    Check,
    Locate,
    SmallWrite,
    RawStore,
    Rebuild,
    Fill,
    Choose,
    Column,
    Prices,
    Stock,
}

/// The kinds in the order of their numbers, from 1.
pub const KINDS: [Kind; 11] = [
    Kind::Encode,
    Kind::Check,
    Kind::Locate,
    Kind::SmallWrite,
    Kind::RawStore,
    Kind::Rebuild,
    Kind::Fill,
    Kind::Choose,
    Kind::Column,
    Kind::Prices,
    Kind::Stock,
];

/// A call as a call file holds it.
#[derive(Clone, Debug)]
pub struct Call {
    pub kind: Kind,
    pub shape: Shape,
    pub a: u64,
    pub b: u64,
    pub c: u64,
    pub d: u64,
    pub buffer1: Vec<u8>,
    pub buffer2: Vec<u8>,
}

/// The answer, the other result numbers, the buffers afterwards and the part handed back.
#[derive(Clone, PartialEq, Eq, Debug)]
pub struct Outcome {
    pub answer: u8,
    pub x: [u64; 4],
    pub buffer1: Vec<u8>,
    pub buffer2: Vec<u8>,
    pub part: Vec<u8>,
}

impl Call {
    /// Whether the call is told losses: how many in a, which in b and c.
    pub fn has_losses(&self) -> bool {
        self.kind == Kind::Rebuild || self.reads_column()
    }

    /// Fill and choose: the two calls of the column read.
    pub fn reads_column(&self) -> bool {
        matches!(self.kind, Kind::Fill | Kind::Choose)
    }

    /// The lost columns as named, none for a call that is told no losses.
    pub fn lost(&self) -> Vec<u64> {
        match (self.has_losses(), self.a) {
            (true, 1) => vec![self.b],
            (true, 2) => vec![self.b, self.c],
            _ => Vec::new(),
        }
    }

    /// The lost columns as indices, once they are known to be good.
    pub fn lost_indices(&self) -> Vec<usize> {
        self.lost().iter().map(|&column| column as usize).collect()
    }

    pub fn stock_shape(&self) -> Option<Shape> {
        stock(self.a)
    }

    fn code(&self) -> Code {
        Code::of(self.shape)
    }

    /// The symbol a write names, once column and row are known to be good.
    fn symbol(&self) -> Symbol {
        Symbol { column: self.a as usize, height: (self.shape.m - 1 - self.b) as usize }
    }
}

/// Makes the call.
pub fn run(call: &Call) -> Outcome {
    let mut outcome = Outcome {
        answer: lowest(&reasons(call)),
        x: [0; 4],
        buffer1: call.buffer1.clone(),
        buffer2: call.buffer2.clone(),
        part: Vec::new(),
    };
    if call.kind == Kind::Rebuild {
        zero_workspace(call, &mut outcome);
    }
    match outcome.answer {
        0 => perform(call, &mut outcome),
        9 if wrong("rebuild-writes-before-test") => write_unasked(call, &mut outcome),
        _ => {}
    }
    if matches!(call.kind, Kind::Choose | Kind::Column) && !wrong("choose-carries-number") {
        outcome.answer = 0;
    }
    outcome
}

/// The workspace is zeroed to its end under every answer.
fn zero_workspace(call: &Call, outcome: &mut Outcome) {
    let mut end = outcome.buffer2.len();
    if wrong("workspace-rest-kept") {
        end = call.shape.workspace_bytes().min(end as u128) as usize;
    }
    let is_kept = wrong("workspace-kept-under-5") && outcome.answer == 5
        || wrong("workspace-kept-under-9") && outcome.answer == 9
        || wrong("workspace-kept-when-refused") && outcome.answer != 0
        || wrong("workspace-kept-when-none-lost") && call.a == 0;
    if !is_kept {
        outcome.buffer2[..end].fill(0);
    }
}

/// A mistake: the lost columns are written although the survivors disagree.
fn write_unasked(call: &Call, outcome: &mut Outcome) {
    let (code, lost) = (call.code(), call.lost_indices());
    for &column in &lost {
        let bytes = outer::lost_column(code, &call.buffer1, &lost, column);
        outcome.buffer1[code.column(column)].copy_from_slice(&bytes);
    }
}

/// Does what a call does that is not refused.
fn perform(call: &Call, outcome: &mut Outcome) {
    match call.kind {
        Kind::Encode => encode(call.code(), &mut outcome.buffer1),
        Kind::Check => perform_check(call, outcome),
        Kind::Locate => outcome.x = located_numbers(locate(call.code(), &call.buffer1)),
        Kind::SmallWrite => perform_small_write(call, outcome),
        Kind::RawStore => perform_raw_store(call, outcome),
        Kind::Rebuild => perform_rebuild(call, outcome),
        Kind::Fill => perform_fill(call, outcome),
        Kind::Choose => outcome.part = chosen(call),
        Kind::Column => outcome.part = column_part(call, call.a),
        Kind::Prices => outcome.x = call.shape.prices(),
        Kind::Stock => perform_stock(call, outcome),
    }
}

fn perform_check(call: &Call, outcome: &mut Outcome) {
    let (broken, bits) = check(call.code(), &call.buffer1);
    outcome.x = [broken, bits, 0, 0];
}

fn located_numbers(located: Located) -> [u64; 4] {
    match located {
        Located::Sound => [0; 4],
        Located::Column(column) if wrong("locate-column-from-1") => [1, column as u64 + 1, 0, 0],
        Located::Column(column) => [1, column as u64, 0, 0],
        Located::More => [2, 0, 0, 0],
    }
}

fn perform_small_write(call: &Call, outcome: &mut Outcome) {
    let symbol = &call.buffer2[..call.shape.w as usize];
    small_write(call.code(), &mut outcome.buffer1, call.symbol(), symbol);
}

fn perform_raw_store(call: &Call, outcome: &mut Outcome) {
    let symbol = &call.buffer2[..call.shape.w as usize];
    if wrong("raw-store-touches-parity") {
        return small_write(call.code(), &mut outcome.buffer1, call.symbol(), symbol);
    }
    raw_store(call.code(), &mut outcome.buffer1, call.symbol(), symbol);
}

fn perform_rebuild(call: &Call, outcome: &mut Outcome) {
    let lost = call.lost_indices();
    if wrong("rebuild-never-9") && !survivors_agree(call.code(), &call.buffer1, &lost) {
        write_unasked(call, outcome);
    } else {
        rebuild(call.code(), &mut outcome.buffer1, &lost);
    }
    let changed = u64::from(outcome.buffer1 != call.buffer1) * call.a;
    outcome.x[0] = right(call.a, &[("rebuild-counts-changed", changed)]);
}

/// A lost column goes to the start of the buffer; the rest, or all, stays as it was.
fn perform_fill(call: &Call, outcome: &mut Outcome) {
    let code = call.code();
    if wrong("fill-zeroes-rest") {
        outcome.buffer2.fill(0);
    }
    if call.lost().contains(&call.d) {
        let lost = call.lost_indices();
        let bytes = outer::lost_column(code, &call.buffer1, &lost, call.d as usize);
        outcome.buffer2[..bytes.len()].copy_from_slice(&bytes);
    } else if wrong("fill-copies-survivor") {
        let bytes = column_part(call, call.d);
        outcome.buffer2[..bytes.len()].copy_from_slice(&bytes);
    }
}

/// The part choose hands back: from the stripe if the column survives, or else the buffer.
fn chosen(call: &Call) -> Vec<u8> {
    let is_lost = right(
        call.lost().contains(&call.d),
        &[("choose-buffer-for-survivor", true), ("choose-stripe-for-lost", false)],
    );
    match is_lost {
        true if wrong("choose-whole-buffer") => call.buffer2.clone(),
        true if wrong("choose-fills") => {
            outer::lost_column(call.code(), &call.buffer1, &call.lost_indices(), call.d as usize)
        }
        true => call.buffer2[..call.code().column_bytes()].to_vec(),
        false => column_part(call, call.d),
    }
}

/// A column of the stripe; it is empty only if a deliberate mistake let a wrong number pass.
fn column_part(call: &Call, column: u64) -> Vec<u8> {
    let mut columns = call.buffer1.chunks_exact(call.code().column_bytes().max(1));
    let mut part = columns.nth(column as usize).unwrap_or(&[]).to_vec();
    if wrong("column-without-parity") {
        part.truncate(part.len() - call.shape.w as usize);
    }
    part
}

fn perform_stock(call: &Call, outcome: &mut Outcome) {
    if let Some(shape) = call.stock_shape() {
        outcome.x = [shape.m, shape.n, shape.w, 0];
    }
}
