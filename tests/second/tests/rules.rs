//! What the rules promise in general, tried on generated stripes and over many shapes.

use second::generate::{shapes, stripes};
use second::mistakes;
use second::model::call::{run, Call, Kind};
use second::model::outer::{lost_column, order};
use second::model::shape::Shape;
use second::model::stripe::{check, encode, Code, Symbol};
use second::model::unknowns::{locate, lost_symbols, rebuild, symbols_of, Located};
use second::random::Random;

/// Shapes of every number of rows, with few, some and all columns.
fn codes() -> Vec<Code> {
    let of_rows =
        |m: usize| [4 * m - 3, 4 * m - 2, 63, 64].map(|n| Code { m, n: n.max(4 * m - 3), w: 1 });
    (2..=16).flat_map(of_rows).collect()
}

/// Every distance between two columns, at the start and around the edge.
fn pairs(code: Code) -> Vec<[usize; 2]> {
    (1..code.n).map(|distance| [code.n - 1, code.up(code.n - 1, distance)]).collect()
}

#[test]
fn two_lost_columns_have_one_solution() {
    for code in codes() {
        let stripe = vec![0; code.n * code.column_bytes()];
        for lost in pairs(code) {
            let solution = lost_symbols(code, &stripe, &lost).expect("zeros agree");
            assert!(solution.is_only, "{code:?} {lost:?}");
        }
    }
}

#[test]
fn outer_chains_ask_only_for_greater_heights() {
    for code in codes() {
        for lost in pairs(code) {
            let order = order(code, &lost);
            for symbol in symbols_of(code, &lost) {
                let others = order.others(code, symbol);
                let is_asked = |member: &&Symbol| order.is_lost(member.column);
                assert!(others.iter().filter(is_asked).all(|member| member.height > symbol.height));
                assert_eq!(others.len(), 2 * code.m - 2);
            }
        }
    }
}

#[test]
fn fill_is_rebuild_where_survivors_agree() {
    let mut random = Random::new(1);
    for _ in 0..300 {
        let code = Code::of(shapes::small(&mut random));
        let sound = stripes::sound(&mut random, code);
        let first = random.index(code.n);
        let lost = [first, code.up(first, 1 + random.index(code.n - 1))];
        let mut stripe = sound.clone();
        stripes::change_column(&mut random, code, &mut stripe, lost[0]);
        stripes::change_column(&mut random, code, &mut stripe, lost[1]);
        for column in lost {
            assert_eq!(lost_column(code, &stripe, &lost, column), sound[code.column(column)]);
        }
        rebuild(code, &mut stripe, &lost);
        assert_eq!(stripe, sound);
    }
}

/// The text's own test of whether a column explains every difference.
fn explains_by_the_text(code: Code, stripe: &[u8], column: usize) -> bool {
    let equal = |d| {
        let (below, above) = (code.down(column, d), code.up(column, d));
        code.difference(stripe, below) == code.difference(stripe, above)
    };
    let is_near =
        |p: usize| (0..code.m).any(|d| p == code.up(column, d) || p == code.down(column, d));
    (1..code.m).all(equal) && (0..code.n).all(|p| is_near(p) || !code.is_broken(stripe, p))
}

#[test]
fn locate_is_as_the_text_says() {
    let mut random = Random::new(2);
    let mut found = [0; 3];
    for _ in 0..2000 {
        let code = Code::of(shapes::small(&mut random));
        let mut stripe = stripes::sound(&mut random, code);
        stripes::damage(&mut random, code, &mut stripe);
        let columns: Vec<usize> =
            (0..code.n).filter(|&column| explains_by_the_text(code, &stripe, column)).collect();
        let (expected, which) = match (check(code, &stripe).0, columns.as_slice()) {
            (0, _) => (Located::Sound, 0),
            (_, [column]) => (Located::Column(*column), 1),
            (_, []) => (Located::More, 2),
            _ => panic!("two columns explain the same damage"),
        };
        assert_eq!(locate(code, &stripe), expected);
        found[which] += 1;
    }
    assert!(found.iter().all(|&times| times > 100), "{found:?}");
}

#[test]
fn small_write_keeps_every_difference() {
    let mut random = Random::new(3);
    for _ in 0..300 {
        let shape = shapes::small(&mut random);
        let code = Code::of(shape);
        let mut stripe = stripes::sound(&mut random, code);
        stripes::damage(&mut random, code, &mut stripe);
        let differences =
            |stripe: &[u8]| (0..code.n).map(|p| code.difference(stripe, p)).collect::<Vec<_>>();
        let before = differences(&stripe);
        let (a, b) = (random.below(shape.n), random.below(shape.m - 1));
        let buffer2 = random.bytes(code.w);
        let call =
            Call { kind: Kind::SmallWrite, shape, a, b, c: 0, d: 0, buffer1: stripe, buffer2 };
        assert_eq!(differences(&run(&call).buffer1), before);
    }
}

#[test]
fn none_lost_on_an_unsound_stripe_is_9() {
    let shape = Shape::new(2, 5, 1);
    let mut stripe = vec![3; 10];
    encode(Code::of(shape), &mut stripe);
    stripe[0] ^= 4;
    let buffer2 = vec![1; 6];
    let call =
        Call { kind: Kind::Rebuild, shape, a: 0, b: 99, c: 99, d: 0, buffer1: stripe, buffer2 };
    let outcome = run(&call);
    assert_eq!((outcome.answer, outcome.buffer2), (9, vec![0; 6]));
}

#[test]
fn same_seed_same_file() {
    use second::generate::{calls::calls, jobs::job};
    assert_eq!(job(5), job(5));
    assert_ne!(job(5), job(6));
    assert_eq!(calls(5, 20), calls(5, 20));
}

/// The programs end with some answer, whatever bytes they are given.
#[test]
fn any_bytes_have_an_answer() {
    use second::generate::{calls::calls, jobs::job};
    use second::model::{call_file, job};
    let mut random = Random::new(4);
    for seed in 0..150 {
        let mut files = [job(seed), calls(seed, 8)];
        for file in files.iter_mut().filter(|file| !file.is_empty()) {
            for _ in 0..random.between(1, 30) {
                let at = random.index(file.len());
                file[at] = random.any() as u8;
            }
        }
        job::answer(&files[0]);
        call_file::answer(&files[1]);
    }
}

/// Every name in the list is a switch in the model, and every switch is in the list.
#[test]
fn mistakes_are_listed() {
    let folder = concat!(env!("CARGO_MANIFEST_DIR"), "/src/model");
    let mut model = String::new();
    for file in std::fs::read_dir(folder).expect("the folder of the model") {
        model += &std::fs::read_to_string(file.expect("a file").path()).expect("a source file");
    }
    for (name, _) in mistakes::OTHERS {
        assert!(model.contains(&format!("(\"{name}\"")), "{name} is no switch");
    }
    let is_part_of_name = |c: char| c == '-' || c.is_ascii_lowercase() || c.is_ascii_digit();
    for text in model.split("(\"").skip(1) {
        let name = text.split('"').next().expect("a text ends");
        let is_name = name.contains('-') && name.chars().all(is_part_of_name);
        assert!(!is_name || mistakes::names().contains(&name), "{name} is not listed");
    }
}
