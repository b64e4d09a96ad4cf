//! What one job reaches.

use super::Tally;
use crate::model::job::{Record, Reply, Step};
use crate::model::shape::{Shape, STOCK};

pub fn note(tally: &mut Tally, steps: &[Step]) {
    let mut shape = None;
    for step in steps {
        match step {
            Step::Stopped(stop) => tally.note(format!("job: 12, {:?}", stop.cut)),
            Step::Skipped(record) => note_client(tally, record, shape.is_none()),
            Step::Answered(record, reply) => {
                note_length(tally, record);
                note_answer(tally, record, reply, shape.is_none());
                note_record(tally, record, reply, &mut shape);
            }
        }
    }
    tally.note_if(!matches!(steps.last(), Some(Step::Stopped(_))), "job: ends cleanly");
}

fn note_length(tally: &mut Tally, record: &Record) {
    tally.note_if(record.payload.is_empty(), "job: length 2");
    tally.note_if(record.payload.len() == 4_098, "job: length 4,100");
}

fn note_client(tally: &mut Tally, record: &Record, is_early: bool) {
    tally.note("job: client skipped");
    tally.note_if(is_early, "job: client before any shape");
    tally.note_if(record.kind == 32_768, "job: client 32,768");
    tally.note_if(record.kind == 65_535, "job: client 65,535");
    note_length(tally, record);
}

fn note_answer(tally: &mut Tally, record: &Record, reply: &Reply, is_early: bool) {
    let Record { kind, payload } = record;
    if !(1..=6).contains(kind) {
        tally.note(format!("job: unknown kind answers {}", reply.answer));
        tally.note_if(is_early, "job: unknown kind before any shape");
        tally.note_if(*kind == 32_767, "job: kind 32,767");
        return tally.note(format!("job: kind {kind}"));
    }
    tally.note(format!("job: kind {kind} answers {}", reply.answer));
    let is_wrong = matches!((kind, payload.len()), (2 | 3, 0 | 1) | (4 | 5, 1..) | (6, 0));
    tally.note_if(is_early && is_wrong, "job: wrong payload before any shape");
    tally.note_if(is_early && reply.answer == 13, "job: wrong shape length before any shape");
}

fn note_record(tally: &mut Tally, record: &Record, reply: &Reply, shape: &mut Option<Shape>) {
    match record.kind {
        1 => note_shape(tally, record, reply, shape),
        2 | 3 if reply.answer == 8 => note_symbol(tally, record, *shape),
        4 if reply.answer == 0 => {
            tally.note(["job: check sound", "job: check broken"][reply.x.min(1) as usize])
        }
        5 if reply.answer == 0 => {
            let found = ["sound", "one column", "more than one"][reply.x as usize];
            tally.note(format!("job: locate {found}"));
        }
        6 => match record.payload.first() {
            Some(count) => tally.note(format!("job: rebuild count {count}")),
            None => tally.note("job: rebuild without a count"),
        },
        _ => {}
    }
}

fn note_symbol(tally: &mut Tally, record: &Record, shape: Option<Shape>) {
    let length = record.payload.len() as u64 - 2;
    let w = shape.map_or(0, |shape| shape.w);
    tally.note_if(length == 0, "job: symbol empty");
    tally.note_if(length > 0 && length < w, "job: symbol short");
    tally.note_if(length > w, "job: symbol long");
}

fn note_shape(tally: &mut Tally, record: &Record, reply: &Reply, shape: &mut Option<Shape>) {
    if (1..=3).contains(&reply.answer) {
        let when = if shape.is_some() { "after a good one" } else { "before any shape" };
        tally.note(format!("job: refused shape {when}"));
    }
    if reply.answer != 0 {
        return;
    }
    let payload = &record.payload;
    let w = u16::from_le_bytes([payload[2], payload[3]]);
    let new = Shape::new(payload[0].into(), payload[1].into(), w.into());
    if let Some(old) = *shape {
        tally.note(if old == new { "job: the same shape again" } else { "job: another shape" });
    }
    tally.note_if(reply.x == 65_536, "job: shape of 65,536 bytes");
    if let Some(number) = STOCK.iter().position(|stock| *stock == new) {
        tally.note(format!("job: stock shape {number}"));
    }
    *shape = Some(new);
}
