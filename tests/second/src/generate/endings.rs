//! How a file ends: cleanly, or with a fault after which nothing more may be answered.

use super::calls::good;
use super::shapes;
use crate::model::call::{Call, Kind};
use crate::model::call_file::{write, LONGEST};
use crate::random::Random;

/// A written call starts with its number; m, n, w, a to d and the two lengths follow.
const HEAD: usize = 1 + 7 * 8 + 2 * 4;

/// Ends a call file, in another way for each of eight seeds.
pub fn end_calls(random: &mut Random, seed: u64, file: &mut Vec<u8>) {
    match seed % 8 {
        0 => {}
        1 => unknown_call(random, file),
        2 => too_many_lost(random, file),
        3 => end_inside(random, file, 1, HEAD),
        4 => end_inside(random, file, HEAD, usize::MAX),
        5 => long_buffer(random, file, 0),
        6 => long_buffer(random, file, 1),
        _ => huge_length(random, file),
    }
}

/// A small good call with two buffers.
fn a_call(random: &mut Random) -> Call {
    let kind = random.pick(&[Kind::SmallWrite, Kind::Rebuild, Kind::Fill, Kind::Choose]);
    let shape = shapes::small(random);
    good(random, kind, shape)
}

/// A call that must not be answered any more.
fn too_late(random: &mut Random, file: &mut Vec<u8>) {
    write(&a_call(random), file);
}

fn unknown_call(random: &mut Random, file: &mut Vec<u8>) {
    let start = file.len();
    write(&a_call(random), file);
    file[start] = random.pick(&[0, 12, 13, 255]);
    too_late(random, file);
}

fn too_many_lost(random: &mut Random, file: &mut Vec<u8>) {
    let mut call = a_call(random);
    call.kind = random.pick(&[Kind::Rebuild, Kind::Fill, Kind::Choose]);
    call.a = random.pick(&[3, 3, 3, 3, 4, 255, 256, 1 << 32, (1 << 32) + 1, u64::MAX]);
    write(&call, file);
    too_late(random, file);
}

/// Cuts a call off somewhere from `low` bytes on, before `high` and before its end.
fn end_inside(random: &mut Random, file: &mut Vec<u8>, low: usize, high: usize) {
    let mut bytes = Vec::new();
    write(&a_call(random), &mut bytes);
    let end = random.between(low as u64, high.min(bytes.len()) as u64 - 1) as usize;
    file.extend(&bytes[..end]);
}

/// A call with both buffers as long as may be, then one with a buffer a byte longer.
fn long_buffer(random: &mut Random, file: &mut Vec<u8>, buffer: usize) {
    let mut call = a_call(random);
    call.buffer1 = random.bytes(LONGEST[0]);
    call.buffer2 = random.bytes(LONGEST[1]);
    write(&call, file);
    let mut call = a_call(random);
    match buffer {
        0 => call.buffer1 = random.bytes(LONGEST[0] + 1),
        _ => call.buffer2 = random.bytes(LONGEST[1] + 1),
    }
    write(&call, file);
    too_late(random, file);
}

/// A length so large that no file holds it.
fn huge_length(random: &mut Random, file: &mut Vec<u8>) {
    let start = file.len();
    write(&a_call(random), file);
    let length = random.pick(&[HEAD - 8, HEAD - 4]);
    file[start + length..start + length + 4].fill(0xFF);
    too_late(random, file);
}
