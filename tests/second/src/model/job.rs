//! The job program: records from the input, one line for each that is not skipped.

use super::call::{run, Call, Kind, Outcome};
use super::reasons::lowest;
use super::shape::Shape;
use crate::mistakes::{right, wrong};

/// Why a record is answered 12.
#[derive(Clone, Copy, PartialEq, Eq, Debug)]
pub enum Cut {
    LengthUnder2,
    LengthOver4100,
    EndsInHead,
    EndsInBody,
}

/// A whole record.
#[derive(Clone, PartialEq, Eq, Debug)]
pub struct Record {
    pub kind: u16,
    pub payload: Vec<u8>,
}

/// The last three fields of a line.
#[derive(Clone, Copy, PartialEq, Eq, Debug)]
pub struct Reply {
    pub answer: u8,
    pub x: u64,
    pub y: u64,
}

/// What became of one record: its number is its place in the list, from 1.
#[derive(Clone, PartialEq, Eq, Debug)]
pub enum Step {
    Skipped(Record),
    Answered(Record, Reply),
    Stopped(Stop),
}

/// The end of a program by 12, and the kind printed.
#[derive(Clone, Copy, PartialEq, Eq, Debug)]
pub struct Stop {
    pub cut: Cut,
    pub kind: u16,
}

/// The current shape, if one was ever accepted, and the stripe.
#[derive(Default)]
pub struct Job {
    pub shape: Option<Shape>,
    pub stripe: Vec<u8>,
}

/// The kind of the record at the front, as far as it is there.
fn kind_of(input: &[u8]) -> u16 {
    match input {
        [_, _, low, high, ..] => u16::from_le_bytes([*low, *high]),
        [_, _, low] => (*low).into(),
        _ => 0,
    }
}

/// Why the record at the front of the input is answered 12, if it is.
fn cut(input: &[u8]) -> Option<Cut> {
    let Some((head, rest)) = input.split_first_chunk() else {
        return Some(Cut::EndsInHead);
    };
    let length = usize::from(u16::from_le_bytes(*head));
    let longest = right(4_100, &[("job-limit-4099", 4_099), ("job-limit-none", usize::MAX)]);
    if length < 2 {
        return Some(Cut::LengthUnder2);
    }
    if length > longest && !(is_client(kind_of(input)) && wrong("job-clients-before-12")) {
        return Some(Cut::LengthOver4100);
    }
    match rest.len() {
        0 | 1 => Some(Cut::EndsInHead),
        there if there < length => Some(Cut::EndsInBody),
        _ => None,
    }
}

/// Takes one record from the front of the input.
fn next_record(input: &mut &[u8]) -> Result<Record, Stop> {
    if let Some(cut) = cut(input) {
        let kind = right(0, &[("job-12-tells-kind", kind_of(input))]);
        return Err(Stop { cut, kind });
    }
    let end = 2 + usize::from(u16::from_le_bytes([input[0], input[1]]));
    let record = Record { kind: kind_of(input), payload: input[4..end].to_vec() };
    *input = &input[end..];
    Ok(record)
}

/// Runs the program over the whole input.
pub fn steps(mut input: &[u8]) -> Vec<Step> {
    let mut job = Job::default();
    let mut steps = Vec::new();
    while !input.is_empty() {
        match next_record(&mut input) {
            Ok(record) => steps.push(job.step(record)),
            Err(_) if is_overlooked(input) => break,
            Err(stop) => {
                steps.push(Step::Stopped(stop));
                if !(stop.cut == Cut::LengthUnder2 && wrong("job-goes-on-after-12")) {
                    break;
                }
                input = &input[2..];
            }
        }
    }
    steps
}

/// Two mistakes that take an input that ends inside a record for a clean end.
fn is_overlooked(input: &[u8]) -> bool {
    input.len() == 1 && wrong("job-stray-byte-is-clean-end")
        || is_client(kind_of(input)) && wrong("job-cut-client-is-skipped")
}

/// The lines of the whole input.
pub fn answer(input: &[u8]) -> String {
    let mut lines = String::new();
    let mut number = 0;
    for step in steps(input) {
        number += 1;
        match step {
            Step::Skipped(_) if wrong("job-skipped-not-counted") => number -= 1,
            Step::Skipped(_) => {}
            Step::Answered(record, Reply { answer, x, y }) => {
                lines += &format!("{number} {} {answer} {x} {y}\n", record.kind);
            }
            Step::Stopped(_) if wrong("job-12-is-silent") => {}
            Step::Stopped(Stop { kind, .. }) => lines += &format!("{number} {kind} 12 0 0\n"),
        }
    }
    lines
}

/// Whether the kind belongs to clients.
fn is_client(kind: u16) -> bool {
    match kind {
        32_768 => !wrong("job-clients-from-32769"),
        32_767 => wrong("job-clients-from-32767"),
        _ => kind > 32_768,
    }
}

/// 13 applies exactly when this is false.
fn is_well_formed(kind: u16, payload: &[u8]) -> bool {
    match kind {
        1 => payload.len() == 4,
        2 | 3 if wrong("job-empty-symbol-13") => payload.len() > 2,
        2 | 3 => payload.len() >= 2,
        4 | 5 => payload.is_empty() || wrong("job-payload-of-check-ignored"),
        _ => is_well_formed_rebuild(payload),
    }
}

/// A count 0 to 2, then that many columns.
fn is_well_formed_rebuild(payload: &[u8]) -> bool {
    let Some((&count, columns)) = payload.split_first() else {
        return false;
    };
    let most = right(2, &[("job-count-3-good", 3)]);
    if wrong("job-rebuild-extra-ignored") {
        return count <= most && columns.len() >= usize::from(count);
    }
    count <= most && columns.len() == usize::from(count)
}

/// 14 applies to every kind but the shape itself, as long as no shape was accepted.
fn needs_shape(kind: u16, is_well_formed: bool) -> bool {
    kind != 1 || wrong("job-wrong-shape-first-14") && !is_well_formed
}

fn refused(answer: u8) -> Reply {
    Reply { answer, x: 0, y: 0 }
}

impl Job {
    fn step(&mut self, record: Record) -> Step {
        if is_client(record.kind) {
            return Step::Skipped(record);
        }
        let reply = self.reply(&record);
        Step::Answered(record, reply)
    }

    /// The program's own refusals in their order, then the record's work.
    fn reply(&mut self, record: &Record) -> Reply {
        let Record { kind, payload } = record;
        let is_well_formed = is_well_formed(*kind, payload);
        let is_early = self.shape.is_none() && needs_shape(*kind, is_well_formed);
        if !(1..=6).contains(kind) {
            return refused(if is_early { right(11, &[("job-14-before-11", 14)]) } else { 11 });
        }
        if is_early {
            return refused(if is_well_formed {
                14
            } else {
                right(14, &[("job-13-before-14", 13)])
            });
        }
        if !is_well_formed {
            return refused(13);
        }
        match kind {
            1 => self.new_shape(payload),
            2 => self.write(Kind::SmallWrite, payload),
            3 => self.write(Kind::RawStore, payload),
            4 => self.look(Kind::Check),
            5 => self.look(Kind::Locate),
            _ => self.rebuild(payload),
        }
    }

    /// A refused shape leaves the old one; an accepted one clears the stripe.
    fn new_shape(&mut self, payload: &[u8]) -> Reply {
        let mut w = [payload[2], payload[3]];
        if wrong("job-w-big-endian") {
            w.reverse();
        }
        let shape = Shape::new(payload[0].into(), payload[1].into(), u16::from_le_bytes(w).into());
        let answer = lowest(&shape.reasons());
        if answer != 0 {
            if wrong("job-refused-shape-clears") {
                self.stripe.fill(0);
            }
            if wrong("job-refused-shape-forgets") {
                self.shape = None;
            }
            return refused(answer);
        }
        let bytes = shape.stripe_bytes() as usize;
        if !(wrong("job-equal-shape-keeps-stripe") && self.shape == Some(shape)) {
            self.stripe = vec![0; bytes];
        }
        self.shape = Some(shape);
        let x = right(bytes, &[("job-x-cut-to-16-bits", bytes & 0xFFFF)]);
        Reply { answer: 0, x: x as u64, y: 0 }
    }

    fn write(&mut self, kind: Kind, payload: &[u8]) -> Reply {
        let numbers = [payload[0].into(), payload[1].into(), 0];
        let outcome = self.call(kind, numbers, payload[2..].to_vec());
        if outcome.answer == 8 && wrong("job-symbol-length-is-13") {
            return refused(13);
        }
        refused(outcome.answer)
    }

    fn look(&mut self, kind: Kind) -> Reply {
        let outcome = self.call(kind, [0; 3], Vec::new());
        Reply { answer: outcome.answer, x: outcome.x[0], y: outcome.x[1] }
    }

    fn rebuild(&mut self, payload: &[u8]) -> Reply {
        let at = |i: usize| payload.get(i).map_or(0, |&byte| u64::from(byte));
        let shape = self.shape.expect("asked only after an accepted shape");
        let workspace = vec![0; shape.workspace_bytes() as usize];
        let outcome = self.call(Kind::Rebuild, [at(0), at(1), at(2)], workspace);
        if outcome.answer == 9 && wrong("job-rebuild-x-when-refused") {
            return Reply { answer: 9, x: at(0), y: 0 };
        }
        Reply { answer: outcome.answer, x: outcome.x[0], y: 0 }
    }

    /// Makes a call on the current stripe and keeps what the call leaves in it.
    fn call(&mut self, kind: Kind, [a, b, c]: [u64; 3], buffer2: Vec<u8>) -> Outcome {
        let shape = self.shape.expect("asked only after an accepted shape");
        let buffer1 = std::mem::take(&mut self.stripe);
        let outcome = run(&Call { kind, shape, a, b, c, d: 0, buffer1, buffer2 });
        self.stripe.clone_from(&outcome.buffer1);
        outcome
    }
}
