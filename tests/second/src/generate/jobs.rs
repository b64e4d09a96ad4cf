//! Job files.

use crate::model::shape::{Shape, STOCK};
use crate::random::Random;

use super::shapes;

/// A job in the making; the shape and the damage are remembered to aim at them.
struct Maker {
    random: Random,
    file: Vec<u8>,
    shape: Shape,
    damaged: Vec<u8>,
}

/// A job file; every fortieth is empty, and the seed chooses its first shape and its end.
pub fn job(seed: u64) -> Vec<u8> {
    if seed % 40 == 39 {
        return Vec::new();
    }
    let random = Random::new(seed.wrapping_mul(2));
    let mut maker =
        Maker { random, file: Vec::new(), shape: Shape::new(2, 5, 1), damaged: Vec::new() };
    for _ in 0..maker.random.below(6) {
        match maker.random.chance(30) {
            true => maker.wrong_payload(),
            false => maker.any_record(),
        }
    }
    if maker.random.chance(30) {
        maker.refused_shape();
        maker.check_or_locate();
    }
    maker.first_shape(seed);
    for _ in 0..maker.random.between(10, 45) {
        maker.any_record();
    }
    maker.end(seed);
    maker.file
}

impl Maker {
    /// Writes a record with its true length.
    fn record(&mut self, kind: u16, payload: &[u8]) {
        self.head(payload.len() as u16 + 2, kind);
        self.file.extend(payload);
    }

    /// Writes a length and a kind alone.
    fn head(&mut self, length: u16, kind: u16) {
        self.file.extend(length.to_le_bytes());
        self.file.extend(kind.to_le_bytes());
    }

    fn any_record(&mut self) {
        match self.random.below(100) {
            0..=21 => self.small_write(),
            22..=41 => self.raw_store(),
            42..=54 => self.record(4, &[]),
            55..=66 => self.record(5, &[]),
            67..=82 => self.rebuild(),
            83..=84 => self.small_shape(),
            85 => self.shape_record(self.shape),
            86..=88 => self.refused_shape(),
            89..=91 => self.unknown(),
            92..=94 => self.client(),
            _ => self.wrong_payload(),
        }
    }

    /// The first shape: every stock shape in turn, shapes at the size limit, or a small one.
    fn first_shape(&mut self, seed: u64) {
        match seed % 20 {
            i @ 0..=9 => self.shape_record(STOCK[i as usize]),
            10 => self.shape_record(Shape::new(2, 8, 4096)),
            11 => self.shape_record(Shape::new(16, 61, 67)),
            12 => self.shape_record(Shape::new(16, 64, 64)),
            13 => {
                let shape = shapes::wide(&mut self.random);
                self.shape_record(shape);
            }
            _ => self.small_shape(),
        }
    }

    fn small_shape(&mut self) {
        let shape = shapes::small(&mut self.random);
        self.shape_record(shape);
    }

    fn shape_record(&mut self, shape: Shape) {
        self.shape = shape;
        self.damaged.clear();
        self.shape_numbers(shape);
    }

    fn shape_numbers(&mut self, Shape { m, n, w }: Shape) {
        let [low, high] = (w as u16).to_le_bytes();
        self.record(1, &[m as u8, n as u8, low, high]);
    }

    fn refused_shape(&mut self) {
        let m = self.random.pick(&[0, 1, 17, 255, 2, 3, 16]);
        let n = self.random.pick(&[0, 4, 8, 60, 65, 255, 5, 9, 61, 64]);
        let w = self.random.pick(&[0, 4_097, 65_535, 68, 6_554, 1_024, 1, 4_096]);
        if Shape::new(m, n, w).is_good() {
            return self.record(1, &[2, 4, 1, 0]);
        }
        self.shape_numbers(Shape::new(m, n, w));
    }

    fn check_or_locate(&mut self) {
        let kind = self.random.pick(&[4, 5]);
        self.record(kind, &[]);
    }

    /// A column, at times n or beyond.
    fn column(&mut self) -> u8 {
        let n = self.shape.n as u8;
        match self.random.below(30) {
            0 => n,
            1 => self.random.pick(&[n + 1, 64, 128, 255]),
            2..=4 => n - 1,
            _ => self.random.below(n.into()) as u8,
        }
    }

    /// A row below `rows`, at times beyond.
    fn row(&mut self, rows: u64) -> u8 {
        match self.random.below(20) {
            0 => rows as u8,
            1 => self.random.pick(&[rows as u8 + 1, 16, 255]),
            _ => self.random.below(rows) as u8,
        }
    }

    /// A symbol, at times of another length than w; never too long for a record.
    fn symbol(&mut self) -> Vec<u8> {
        let w = self.shape.w as usize;
        let length = match self.random.below(20) {
            0 => w - 1,
            1 => w + 1,
            2 => 0,
            _ => w,
        };
        self.random.bytes(length.min(4_096))
    }

    fn small_write(&mut self) {
        let rows = self.shape.m - 1;
        let place = [self.column(), self.row(rows)];
        let symbol = self.symbol();
        self.record(2, &[&place[..], &symbol].concat());
    }

    /// Damages the stripe; most damage stays within one or two columns.
    fn raw_store(&mut self) {
        let mut column = self.column();
        if !self.damaged.is_empty() && self.random.chance(75) {
            column = self.random.pick(&self.damaged);
        } else {
            self.damaged.push(column);
        }
        let rows = self.shape.m;
        let row = self.row(rows);
        let symbol = self.symbol();
        self.record(3, &[&[column, row], &symbol[..]].concat());
    }

    /// Names the damaged columns, if they are few, or any; at times the same one twice.
    fn rebuild(&mut self) {
        let mut lost = [self.column(), self.column()];
        if let Some(&damaged) = self.damaged.first() {
            lost[0] = damaged;
        }
        if self.damaged.len() > 1 {
            lost[1] = self.damaged[1];
        }
        if self.random.chance(10) {
            lost[1] = lost[0];
        }
        if self.random.chance(15) {
            lost[1] = ((u64::from(lost[0]) + self.shape.n / 2) % self.shape.n) as u8;
        }
        if self.random.chance(50) {
            lost.swap(0, 1);
        }
        let count = self.random.pick(&[0, 1, 1, 2, 2, 2, 2]);
        self.record(6, &[&[count as u8], &lost[..count]].concat());
        if self.random.chance(60) {
            self.damaged.clear();
            self.record(4, &[]);
        }
    }

    fn some_payload(&mut self) -> Vec<u8> {
        let length = match self.random.below(12) {
            0 => 4_098,
            1 => 0,
            _ => self.random.index(12),
        };
        self.random.bytes(length)
    }

    fn unknown(&mut self) {
        let kind = match self.random.below(5) {
            0 => self.random.between(7, 32_767) as u16,
            _ => self.random.pick(&[0, 7, 8, 256, 257, 260, 32_767]),
        };
        let payload = self.some_payload();
        self.record(kind, &payload);
    }

    fn client_kind(&mut self) -> u16 {
        match self.random.below(3) {
            0 => self.random.between(32_768, 65_535) as u16,
            _ => self.random.pick(&[32_768, 32_769, 32_772, 65_535]),
        }
    }

    fn client(&mut self) {
        let kind = self.client_kind();
        let payload = self.some_payload();
        self.record(kind, &payload);
    }

    /// A payload of a wrong length, or a wrong count of lost columns.
    fn wrong_payload(&mut self) {
        let short = self.random.index(2);
        let extra = self.random.pick(&[1, 2, 9]);
        let bytes = self.random.bytes(9);
        match self.random.below(9) {
            0 => self.record(1, &[2, 5, 1]),
            1 => self.record(1, &[2, 5, 1, 0, 0]),
            2 => self.record(1, &[]),
            3 => self.record(2, &bytes[..short]),
            4 => self.record(3, &bytes[..short]),
            5 => self.record(4, &bytes[..extra]),
            6 => self.record(5, &bytes[..extra]),
            _ => self.wrong_rebuild(),
        }
    }

    fn wrong_rebuild(&mut self) {
        let payload: &[u8] = match self.random.below(9) {
            0 => &[],
            1 => &[0, 0],
            2 => &[1],
            3 => &[1, 0, 1],
            4 => &[2, 0],
            5 => &[2, 0, 1, 2],
            6 => &[3, 0, 1, 2],
            7 => &[3, 0, 1],
            _ => &[255],
        };
        self.record(6, payload);
    }

    /// Ends cleanly or by one of the faults answered 12; what follows a fault must not count.
    fn end(&mut self, seed: u64) {
        let client = self.client_kind();
        let kind = self.random.pick(&[1, 2, 4, 7, client, client, client]);
        let end = match seed % 13 {
            0..=2 => return,
            3 => return self.file.push(self.random.pick(&[0, 1, 2, 255])),
            4 => vec![0, 0],
            5 => vec![1, 0, 4],
            6 => vec![2, 0],
            7 => vec![2, 0, 4],
            8 => return self.too_long(4_101, kind),
            9 => return self.too_long(65_535, kind),
            10 => return self.cut_body(kind, 1),
            11 => return self.cut_body(client, 1),
            _ => return self.cut_body(kind, 4_098),
        };
        let is_whole = end.len() > 2 && end[0] == 1 || end == [0, 0];
        self.file.extend(end);
        if is_whole {
            self.check_or_locate();
        }
    }

    /// A record longer than allowed, all there, with another one behind it.
    fn too_long(&mut self, length: u16, kind: u16) {
        self.head(length, kind);
        let bytes = self.random.bytes(usize::from(length) - 2);
        if length < 5_000 || self.random.chance(30) {
            self.file.extend(bytes);
            self.check_or_locate();
        }
    }

    /// A record of a good length that the input ends inside, at least one byte too early.
    fn cut_body(&mut self, kind: u16, payload: u16) {
        self.head(payload + 2, kind);
        let there = self.random.index(payload.into());
        let bytes = self.random.bytes(there);
        self.file.extend(bytes);
    }
}
