//! Holds the archive to the second program on seeded calls, good ones and hostile ones: the answer, the numbers, every
//! byte of every buffer, and where a part lies.
//!
//! Each call is made twice, by the public methods and by the numbers that the archive takes, and both have to agree with
//! the second program. Four threads make calls at the same time. Buffers that overlap are not tried: Rust's borrow rules
//! leave no way to lend them.

mod by_methods;
mod by_numbers;
mod header;
mod lent;

use crate::Shape;
use lent::Lent;
use second::generate::{calls::calls, refusals::REASONS};
use second::model::call::{run, Call, Kind, KINDS};
use second::model::call_file;
use second::model::reasons::{lowest, reasons};
use std::collections::BTreeSet;

/// The files of calls, by their seeds, and how many calls each has.
const SEEDS: std::ops::Range<u64> = 1000..1400;
const CALLS: u64 = 100;
const THREADS: u64 = 4;

/// What came of a call besides the buffers: the number of its answer, the other numbers, and which buffer the part handed
/// back is in (0 or 1), where it starts there and its length.
#[derive(PartialEq, Eq, Debug)]
struct Told {
    answer: usize,
    x: [usize; 4],
    part: [usize; 3],
}

/// A way to make a call with these two buffers.
type Way = fn(&Call, &mut Lent, &mut Lent) -> Told;

const WAYS: [(&str, Way); 2] = [("by its method", by_methods::made), ("by its numbers", by_numbers::made)];

/// A call that is being tried; it prints itself if the test fails under it.
struct Trying<'a> {
    call: &'a Call,
    seed: u64,
    number: usize,
    way: &'a str,
}

impl Drop for Trying<'_> {
    fn drop(&mut self) {
        if std::thread::panicking() {
            let Call { kind, shape, a, b, c, d, buffer1, buffer2 } = self.call;
            eprintln!("seed {}, call {}, made {}: {kind:?}, {shape:?}", self.seed, self.number, self.way);
            eprintln!("a {a}, b {b}, c {c}, d {d}, lengths {} and {}", buffer1.len(), buffer2.len());
            if self.call.has_losses() {
                eprintln!("by its numbers: {:?}", by_numbers::named(self.call));
            }
            eprintln!("buffer 1 {buffer1:02x?}\nbuffer 2 {buffer2:02x?}");
        }
    }
}

fn shape_of(call: &Call) -> Shape {
    Shape { m: call.shape.m as usize, n: call.shape.n as usize, w: call.shape.w as usize }
}

/// Where the part lies that the second program hands back.
fn expected_part(call: &Call, length: usize) -> [usize; 3] {
    let column = |number: u64| number as usize * length;
    match (length, call.kind) {
        (0, _) => [0; 3],
        (_, Kind::Choose) if call.lost().contains(&call.d) => [1, 0, length],
        (_, Kind::Choose) => [0, column(call.d), length],
        _ => [0, column(call.a), length],
    }
}

fn try_call(seed: u64, number: usize, call: &Call) {
    let expected = run(call);
    for (way, made) in WAYS {
        let _trying = Trying { call, seed, number, way };
        let (mut buffer1, mut buffer2) = (Lent::new(&call.buffer1), Lent::new(&call.buffer2));
        let told = made(call, &mut buffer1, &mut buffer2);
        let part = expected_part(call, expected.part.len());
        let x = expected.x.map(|number| number as usize);
        assert_eq!(told, Told { answer: expected.answer.into(), x, part });
        let [place, start, length] = part;
        let bytes = &[&buffer1, &buffer2][place].bytes()[start..start + length];
        assert!(bytes == expected.part, "the part holds other bytes");
        assert!(buffer1.bytes() == expected.buffer1, "buffer 1 is {:02x?}", buffer1.bytes());
        assert!(buffer2.bytes() == expected.buffer2, "buffer 2 is {:02x?}", buffer2.bytes());
        assert!(buffer1.is_guarded() && buffer2.is_guarded(), "bytes around a buffer were written");
    }
}

/// Every kind of call with each of its answers; for a part, with what it is refused for.
fn all_answers() -> BTreeSet<(Kind, u8)> {
    let refused = REASONS.iter().flat_map(|&(kind, numbers)| numbers.iter().map(move |&number| (kind, number)));
    let done = KINDS.iter().map(|&kind| (kind, 0));
    refused.chain(done).chain([(Kind::Rebuild, 9), (Kind::Stock, 10)]).collect()
}

/// Tries the files of these seeds; gives what answers were reached, and by how many calls.
fn try_files(seeds: impl Iterator<Item = u64>) -> (BTreeSet<(Kind, u8)>, usize) {
    let (mut reached, mut count) = (BTreeSet::new(), 0);
    for seed in seeds {
        let (calls, _) = call_file::read(&calls(seed, CALLS));
        for (number, call) in calls.iter().enumerate() {
            try_call(seed, number, call);
            reached.insert((call.kind, lowest(&reasons(call))));
            count += 1;
        }
    }
    (reached, count)
}

/// One more seed, if BANGSORUT_SEED has it in hexadecimal digits.
fn extra_seed() -> Option<u64> {
    let digits = std::env::var("BANGSORUT_SEED").ok()?;
    Some(u64::from_str_radix(&digits, 16).expect("BANGSORUT_SEED is up to 16 hexadecimal digits"))
}

#[test]
fn agrees_with_the_second_program() {
    let share = |thread| SEEDS.chain(extra_seed()).filter(move |seed| seed % THREADS == thread);
    let found: Vec<_> = std::thread::scope(|scope| {
        let threads: Vec<_> = (0..THREADS).map(|thread| scope.spawn(move || try_files(share(thread)))).collect();
        threads.into_iter().map(|thread| thread.join().expect("every call agrees")).collect()
    });
    let reached: BTreeSet<_> = found.iter().flat_map(|(reached, _)| reached.clone()).collect();
    let missing: Vec<_> = all_answers().difference(&reached).copied().collect();
    assert!(missing.is_empty(), "no call was answered so: {missing:?}");
    let count: usize = found.iter().map(|(_, count)| count).sum();
    assert!(count >= 40_000, "only {count} calls were made");
    println!("{count} calls, each made in {} ways, agree with the second program", WAYS.len());
}
