//! Call files: how a call is written, and the line that tells what came of it.

use super::call::{run, Call, Kind, Outcome, KINDS};
use super::shape::Shape;
use crate::mistakes::{right, wrong};

/// The most bytes the two buffers of a call may hold.
pub const LONGEST: [usize; 2] = [66_000, 20_000];

/// Why a call file is bad; the line it gives is always the same.
#[derive(Clone, Copy, PartialEq, Eq, PartialOrd, Ord, Debug)]
pub enum Bad {
    UnknownCall,
    TooManyLost,
    LongBuffer1,
    LongBuffer2,
    EndsInside,
}

/// Takes bytes from the front of the input.
struct Reader<'a> {
    rest: &'a [u8],
}

impl Reader<'_> {
    fn take(&mut self, length: usize) -> Result<&[u8], Bad> {
        if self.rest.len() < length {
            return Err(Bad::EndsInside);
        }
        let (taken, rest) = self.rest.split_at(length);
        self.rest = rest;
        Ok(taken)
    }

    /// A little-endian number of so many bytes.
    fn number(&mut self, length: usize) -> Result<u64, Bad> {
        let bytes = self.take(length)?;
        Ok(bytes.iter().rev().fold(0, |number, &byte| number << 8 | u64::from(byte)))
    }
}

/// The calls of a file up to its end or its first bad call.
pub fn read(input: &[u8]) -> (Vec<Call>, Option<Bad>) {
    let mut reader = Reader { rest: input };
    let mut calls = Vec::new();
    while !reader.rest.is_empty() {
        match read_call(&mut reader) {
            Ok(call) => calls.push(call),
            Err(bad) => return (calls, Some(bad)),
        }
    }
    (calls, None)
}

fn read_call(reader: &mut Reader) -> Result<Call, Bad> {
    let number = reader.number(1)? as usize;
    let kind = *KINDS.get(number.wrapping_sub(1)).ok_or(Bad::UnknownCall)?;
    let shape = read_shape(reader)?;
    let mut numbers = [0; 4];
    for number in &mut numbers {
        *number = reader.number(8)?;
        if wrong("column-cut-to-32-bits") {
            *number &= 0xFFFF_FFFF;
        }
    }
    let [a, b, c, d] = numbers;
    let (length1, length2) = (reader.number(4)? as usize, reader.number(4)? as usize);
    let mut call = Call { kind, shape, a, b, c, d, buffer1: Vec::new(), buffer2: Vec::new() };
    refuse(&call, length1, length2)?;
    call.buffer1 = reader.take(length1)?.to_vec();
    call.buffer2 = reader.take(length2)?.to_vec();
    Ok(call)
}

fn read_shape(reader: &mut Reader) -> Result<Shape, Bad> {
    let shape = Shape::new(reader.number(8)?, reader.number(8)?, reader.number(8)?);
    if wrong("shape-cut-to-32-bits") {
        let cut = 0xFFFF_FFFF;
        return Ok(Shape::new(shape.m & cut, shape.n & cut, shape.w & cut));
    }
    Ok(shape)
}

/// The faults that can be seen before the buffers are read.
fn refuse(call: &Call, length1: usize, length2: usize) -> Result<(), Bad> {
    let most_lost = right(2, &[("calls-count-3-read", 3)]);
    if call.has_losses() && call.a > most_lost {
        return Err(Bad::TooManyLost);
    }
    if length1 > right(LONGEST[0], &[("calls-limit-65536", 65_536)]) {
        return Err(Bad::LongBuffer1);
    }
    if length2 > right(LONGEST[1], &[("calls-buffer-2-no-limit", usize::MAX)]) {
        return Err(Bad::LongBuffer2);
    }
    Ok(())
}

/// Writes a call as a file holds it.
pub fn write(call: &Call, file: &mut Vec<u8>) {
    file.push(call.kind as u8);
    let Shape { m, n, w } = call.shape;
    for number in [m, n, w, call.a, call.b, call.c, call.d] {
        file.extend(number.to_le_bytes());
    }
    file.extend((call.buffer1.len() as u32).to_le_bytes());
    file.extend((call.buffer2.len() as u32).to_le_bytes());
    file.extend(&call.buffer1);
    file.extend(&call.buffer2);
}

/// The lines a whole call file gives.
pub fn answer(input: &[u8]) -> String {
    let (calls, bad) = read(input);
    let mut lines = String::new();
    for call in &calls {
        lines += &line(call.kind, &run(call));
    }
    if bad.is_some() && !wrong("calls-bad-is-silent") {
        lines += "bad call file\n";
    }
    lines
}

fn line(kind: Kind, outcome: &Outcome) -> String {
    let Outcome { answer, x: [x1, x2, x3, x4], buffer1, buffer2, part } = outcome;
    let (buffer1, buffer2, part) = (hex(buffer1), hex(buffer2), hex(part));
    format!("{} {answer} {x1} {x2} {x3} {x4} {buffer1} {buffer2} {part}\n", kind as u8)
}

/// Lower-case hex, or a dash for an empty buffer.
fn hex(bytes: &[u8]) -> String {
    if bytes.is_empty() {
        return "-".to_string();
    }
    let digit = |nibble: u8| char::from(b"0123456789abcdef"[usize::from(nibble)]);
    bytes.iter().flat_map(|byte| [digit(byte >> 4), digit(byte & 15)]).collect()
}
