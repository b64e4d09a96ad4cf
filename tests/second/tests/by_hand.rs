//! The small stripes that document 01 works out by hand, and its example of a job.

use second::model::call::{run, Call, Kind, Outcome};
use second::model::job;
use second::model::outer::order;
use second::model::shape::Shape;
use second::model::stripe::{Code, Symbol};

const P5: [u8; 10] = [0x01, 0x12, 0x02, 0x05, 0x04, 0x0A, 0x08, 0x14, 0x10, 0x09];

fn call(kind: Kind, shape: Shape, numbers: [u64; 4], buffer1: &[u8], buffer2: &[u8]) -> Outcome {
    let [a, b, c, d] = numbers;
    run(&Call { kind, shape, a, b, c, d, buffer1: buffer1.to_vec(), buffer2: buffer2.to_vec() })
}

/// A call on a stripe of shape (2, 5), w 1.
fn on_p5(kind: Kind, numbers: [u64; 4], stripe: &[u8], buffer2: &[u8]) -> Outcome {
    call(kind, Shape::new(2, 5, 1), numbers, stripe, buffer2)
}

/// A symbol of the (3, 9) code by row and column.
fn at(row: usize, column: usize) -> Symbol {
    Symbol { column, height: 2 - row }
}

const THREE: Code = Code { m: 3, n: 9, w: 1 };

#[test]
fn p1_chain_2() {
    let mut chain = THREE.chain(2);
    for member in [at(2, 2), at(0, 0), at(1, 1), at(1, 3), at(0, 4)] {
        let place = chain.iter().position(|symbol| *symbol == member);
        chain.remove(place.expect("a member of chain 2"));
    }
    assert!(chain.is_empty());
}

#[test]
fn p2_chains_of_column_0() {
    assert_eq!(THREE.chains_of(at(0, 0)), [2, 7]);
    assert_eq!(THREE.chains_of(at(1, 0)), [1, 8]);
    assert_eq!(THREE.chains_of(at(2, 0)), [0]);
}

#[test]
fn p3_p4_shapes() {
    assert_eq!(Shape::new(2, 4, 1).reasons(), [2]);
    assert!(Shape::new(2, 5, 1).is_good());
    assert_eq!(Shape::new(16, 60, 1).reasons(), [2]);
    assert!(Shape::new(16, 61, 67).is_good());
    assert_eq!(Shape::new(16, 61, 68).reasons(), [3]);
}

#[test]
fn p5_encode() {
    let information = [0x01, 0xEE, 0x02, 0xEE, 0x04, 0xEE, 0x08, 0xEE, 0x10, 0xEE];
    let encoded = on_p5(Kind::Encode, [0; 4], &information, &[]);
    assert_eq!((encoded.answer, encoded.buffer1), (0, P5.to_vec()));
}

/// P5 with columns lost to leftovers.
fn without(columns: &[usize]) -> Vec<u8> {
    let mut stripe = P5.to_vec();
    for column in columns {
        stripe[2 * column..2 * column + 2].fill(0x77);
    }
    stripe
}

#[test]
fn p6_rebuild_0_and_2() {
    for (first, second) in [(0, 2), (2, 0)] {
        let stripe = without(&[0, 2]);
        let done = on_p5(Kind::Rebuild, [2, first, second, 9], &stripe, &[0xEE; 5]);
        assert_eq!((done.answer, done.x), (0, [2, 0, 0, 0]));
        assert_eq!((done.buffer1, done.buffer2), (P5.to_vec(), vec![0; 5]));
    }
}

#[test]
fn p7_rebuild_4_and_0() {
    let code = Code { m: 2, n: 5, w: 1 };
    for lost in [[0, 4], [4, 0]] {
        assert_eq!(order(code, &lost).first, 4);
        let numbers = [2, lost[0] as u64, lost[1] as u64, 4];
        let stripe = without(&[0, 4]);
        assert_eq!(on_p5(Kind::Rebuild, numbers, &stripe, &[0xEE; 4]).buffer1, P5);
        let filled = on_p5(Kind::Fill, numbers, &stripe, &[0xEE; 3]);
        assert_eq!((filled.buffer1, filled.buffer2), (stripe, vec![0x10, 0x09, 0xEE]));
    }
}

#[test]
fn p8_small_write() {
    let written = on_p5(Kind::SmallWrite, [4, 0, 0, 0], &P5, &[0xFF]);
    let mut expected = P5;
    (expected[8], expected[1], expected[7]) = (0xFF, 0xFD, 0xFB);
    assert_eq!((written.answer, written.buffer1), (0, expected.to_vec()));
}

#[test]
fn p9_raw_store_and_locate() {
    let stored = on_p5(Kind::RawStore, [0, 0, 0, 0], &P5, &[0]);
    assert_eq!(on_p5(Kind::Check, [0; 4], &stored.buffer1, &[]).x, [2, 2, 0, 0]);
    assert_eq!(on_p5(Kind::Locate, [0; 4], &stored.buffer1, &[]).x, [1, 0, 0, 0]);
}

#[test]
fn p10_more_than_one() {
    let mut stripe = P5;
    stripe[0] ^= 1;
    stripe[2] ^= 1;
    assert_eq!(on_p5(Kind::Check, [0; 4], &stripe, &[]).x[0], 4);
    assert_eq!(on_p5(Kind::Locate, [0; 4], &stripe, &[]).x, [2, 0, 0, 0]);
}

#[test]
fn p11_prices() {
    let prices = call(Kind::Prices, Shape::new(3, 9, 1), [0; 4], &[], &[]);
    assert_eq!((prices.answer, prices.x), (0, [27, 9, 18, 11]));
}

#[test]
fn example_of_a_job() {
    let input = [
        "06 00 01 00 02 05 01 00",
        "05 00 02 00 00 00 A5",
        "02 00 04 00",
        "05 00 03 00 01 01 A4",
        "02 00 04 00",
        "02 00 05 00",
        "04 00 06 00 01 03",
        "05 00 06 00 02 01 00",
        "02 00 04 00",
    ];
    let byte = |text| u8::from_str_radix(text, 16).expect("two hexadecimal digits");
    let input: Vec<u8> = input.iter().flat_map(|record| record.split(' ').map(byte)).collect();
    let output = "1 1 0 10 0\n2 2 0 0 0\n3 4 0 0 0\n4 3 0 0 0\n5 4 0 1 1\n6 5 0 1 1\n\
                  7 6 9 0 0\n8 6 0 2 0\n9 4 0 0 0\n";
    assert_eq!(job::answer(&input), output);
    assert_eq!(job::answer(&[]), "");
    assert_eq!(job::answer(&[7]), "1 0 12 0 0\n");
    assert_eq!(job::answer(&[3, 0, 0, 0x80, 9, 2, 0, 4, 0]), "2 4 14 0 0\n");
}
