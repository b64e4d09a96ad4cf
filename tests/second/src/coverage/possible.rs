//! What document 01 makes possible, and so has to be reached.

use super::calls::name;
use crate::generate::{refusals, sweep};

/// The answers of each call; choose and column count by the reason that emptied their part.
const ANSWERS: [(&str, &[u8]); 17] = [
    ("encode", &[0, 1, 2, 3, 4]),
    ("check", &[0, 1, 2, 3, 4]),
    ("locate", &[0, 1, 2, 3, 4]),
    ("small write", &[0, 1, 2, 3, 4, 6, 8]),
    ("raw store", &[0, 1, 2, 3, 4, 6, 8]),
    ("rebuild, none lost", &[0, 1, 2, 3, 4, 5, 9]),
    ("rebuild, one lost", &[0, 1, 2, 3, 4, 5, 6, 9]),
    ("rebuild, two lost", &[0, 1, 2, 3, 4, 5, 6, 7, 9]),
    ("fill, none lost", &[0, 1, 2, 3, 4, 6, 8]),
    ("fill, one lost", &[0, 1, 2, 3, 4, 6, 8]),
    ("fill, two lost", &[0, 1, 2, 3, 4, 6, 7, 8]),
    ("choose, none lost", &[0, 1, 2, 3, 4, 6, 8]),
    ("choose, one lost", &[0, 1, 2, 3, 4, 6, 8]),
    ("choose, two lost", &[0, 1, 2, 3, 4, 6, 7, 8]),
    ("column", &[0, 1, 2, 3, 4, 6]),
    ("prices", &[0, 1, 2, 3]),
    ("stock", &[0, 10]),
];

/// The answers of each kind of record.
const JOB_ANSWERS: [(u16, &[u8]); 6] = [
    (1, &[0, 1, 2, 3, 13]),
    (2, &[0, 6, 8, 13, 14]),
    (3, &[0, 6, 8, 13, 14]),
    (4, &[0, 13, 14]),
    (5, &[0, 13, 14]),
    (6, &[0, 6, 7, 9, 13, 14]),
];

/// Everything else worth reaching in call files.
const CALL_FEATURES: &[&str] = &[
    "m is 0",
    "m is 1",
    "m is 2",
    "m is 16",
    "m is 17",
    "m is 2^64-1",
    "n is 0",
    "n is 4m-4",
    "n is 4m-3",
    "n is 64",
    "n is 65",
    "n is 2^64-1",
    "w is 0",
    "w is 1",
    "w is 4096",
    "w is 4097",
    "w is 2^64-1",
    "m·n·w is 65,536",
    "m·n·w is one symbol size over the limit",
    "m·n·w over 2^64",
    "m·n·w is the stripe's length only modulo 2^64",
    "good shape, upper half of a number not zero",
    "check: sound",
    "check: broken",
    "check: over 65,535 bits",
    "locate: sound",
    "locate: one column",
    "locate: more than one",
    "small write on a broken stripe",
    "small write on a sound stripe",
    "symbol: empty",
    "symbol: one short",
    "symbol: exact",
    "symbol: longer",
    "workspace: empty",
    "workspace: one short",
    "workspace: exact",
    "workspace: longer",
    "fill buffer: empty",
    "fill buffer: one short",
    "fill buffer: exact",
    "fill buffer: longer",
    "choose buffer: empty",
    "choose buffer: one short",
    "choose buffer: exact",
    "choose buffer: longer",
    "stale workspace under 0",
    "stale workspace under 1",
    "stale workspace under 2",
    "stale workspace under 3",
    "stale workspace under 4",
    "stale workspace under 5",
    "stale workspace under 6",
    "stale workspace under 7",
    "stale workspace under 9",
    "rebuild, around the edge: 0",
    "rebuild, around the edge: 9",
    "rebuild, both walks n/2: 0",
    "rebuild, both walks n/2: 9",
    "rebuild, neighbours: 0",
    "rebuild, neighbours: 9",
    "rebuild, more than m-1 apart: 0",
    "rebuild, more than m-1 apart: 9",
    "rebuild 0, lost columns were right already",
    "rebuild 0, lost columns were wrong",
    "fill, around the edge, survivors agree",
    "fill, around the edge, survivors disagree",
    "fill, both walks n/2, survivors agree",
    "fill, both walks n/2, survivors disagree",
    "fill, both walks n/2, the tie shows",
    "fill, the order shows",
    "fill wants the only lost column, survivors agree",
    "fill wants the only lost column, survivors disagree",
    "fill wants the first lost column, survivors agree",
    "fill wants the first lost column, survivors disagree",
    "fill wants the second lost column, survivors agree",
    "fill wants the second lost column, survivors disagree",
    "fill wants a survivor, survivors agree",
    "fill wants a survivor, survivors disagree",
    "choose hands back the stripe",
    "choose hands back the buffer",
    "same columns, below n",
    "same columns, n or more",
    "call file ends: cleanly",
    "call file ends: UnknownCall",
    "call file ends: TooManyLost",
    "call file ends: LongBuffer1",
    "call file ends: LongBuffer2",
    "call file ends: EndsInside",
    "buffers of 66,000 and 20,000 bytes",
    "buffer lent without use",
];

/// Everything else worth reaching in job files.
const JOB_FEATURES: &[&str] = &[
    "job: empty input",
    "job: ends cleanly",
    "job: 12, LengthUnder2",
    "job: 12, LengthOver4100",
    "job: 12, EndsInHead",
    "job: 12, EndsInBody",
    "job: unknown kind answers 11",
    "job: kind 0",
    "job: kind 7",
    "job: kind 32,767",
    "job: client skipped",
    "job: client 32,768",
    "job: client 65,535",
    "job: length 2",
    "job: length 4,100",
    "job: unknown kind before any shape",
    "job: wrong payload before any shape",
    "job: client before any shape",
    "job: wrong shape length before any shape",
    "job: refused shape before any shape",
    "job: refused shape after a good one",
    "job: the same shape again",
    "job: another shape",
    "job: shape of 65,536 bytes",
    "job: rebuild count 0",
    "job: rebuild count 1",
    "job: rebuild count 2",
    "job: rebuild count 3",
    "job: rebuild count 255",
    "job: rebuild without a count",
    "job: check sound",
    "job: check broken",
    "job: locate sound",
    "job: locate one column",
    "job: locate more than one",
    "job: symbol empty",
    "job: symbol short",
    "job: symbol long",
];

/// The calls each column edge is tried with.
pub const WITH_COLUMNS: [&str; 6] =
    ["small write", "raw store", "rebuild", "fill", "choose", "column"];

/// What the sweep tries with every pair.
pub const PAIR_TRIES: [&str; 3] = ["rebuild 0", "rebuild 9", "fill"];

/// Every ordered pair of a swept shape.
pub fn pairs_of(m: u64, n: u64, what: &str) -> Vec<String> {
    let of_shape = sweep::pairs().into_iter().filter(|pair| (pair.0, pair.1) == (m, n));
    of_shape.map(|(_, _, b, c)| pair(m, n, b, c, what)).collect()
}

/// How a pair of lost columns is named in the tally.
pub fn pair(m: u64, n: u64, first: u64, second: u64, what: &str) -> String {
    format!("({m},{n}) {first} {second} {what}")
}

/// Everything that has to be reached, the pairs apart.
pub fn without_pairs() -> Vec<String> {
    let mut all = Vec::new();
    for (call, answers) in ANSWERS {
        all.extend(answers.iter().map(|answer| format!("{call} answers {answer}")));
    }
    for (kind, low, high) in refusals::pairs().into_iter().filter(|(_, low, high)| low < high) {
        all.push(format!("{}: {low} though {high} applies too", name(kind)));
    }
    all.push("rebuild: 5 though 9 applies too".to_string());
    all.extend(CALL_FEATURES.iter().map(|what| what.to_string()));
    for call in WITH_COLUMNS {
        all.extend(["n-1", "n", "2^64-1"].map(|column| format!("{call}: column {column}")));
    }
    for row in ["m-2", "m-1", "m", "2^64-1"] {
        all.extend(["small write", "raw store"].map(|call| format!("{call}: row {row}")));
    }
    all.extend((0..10).map(|number| format!("stripe of stock shape {number}")));
    all.extend((0..=10).map(|number| format!("stock number {number}")));
    all.push("stock number 2^64-1".to_string());
    for (kind, answers) in JOB_ANSWERS {
        all.extend(answers.iter().map(|answer| format!("job: kind {kind} answers {answer}")));
    }
    all.extend(JOB_FEATURES.iter().map(|what| what.to_string()));
    all.extend((0..10).map(|number| format!("job: stock shape {number}")));
    all
}

/// Everything that has to be reached.
pub fn all() -> Vec<String> {
    let mut all = without_pairs();
    for (m, n) in sweep::SWEPT {
        for what in PAIR_TRIES {
            all.extend(pairs_of(m, n, what));
        }
    }
    all
}
