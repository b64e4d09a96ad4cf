//! The calls of the archive as functions on slices, with the numbers as they come. The only module with unsafe code.
//!
//! Why each call is sound. The archive asks three things of its callers (`bangsorut.h`): that each pointer has as many
//! bytes behind it as the length says, that the buffers of a call do not overlap, and that nobody else touches what the
//! call writes, or writes what it reads. A slice is the first. The other two are Rust's borrow rules: while a `&mut`
//! slice is lent, no other slice shares a byte with it. For all else, every number and every length, the archive answers
//! by itself, and it keeps no pointer: its contracts ask for nothing.

use crate::Shape;

/// The losses as the archive is told them: how many of a and b are lost, a first; a count over 2 is the same as 2.
#[derive(Clone, Copy, Debug)]
pub struct Named {
    pub count: usize,
    pub a: usize,
    pub b: usize,
}

mod archive {
    type Out = *mut u8;
    type In = *const u8;
    type N = usize;

    #[rustfmt::skip]
    extern "C" {
        pub fn bangsorut_encode(m: N, n: N, w: N, stripe: Out, length: N) -> N;
        pub fn bangsorut_check(m: N, n: N, w: N, stripe: In, length: N, counts: &mut [N; 2]) -> N;
        pub fn bangsorut_locate(m: N, n: N, w: N, stripe: In, length: N, found: &mut [N; 2]) -> N;
        pub fn bangsorut_small_write(
            m: N, n: N, w: N, stripe: Out, length: N, column: N, row: N, symbol: In, symbol_length: N,
        ) -> N;
        pub fn bangsorut_raw_store(
            m: N, n: N, w: N, stripe: Out, length: N, column: N, row: N, symbol: In, symbol_length: N,
        ) -> N;
        pub fn bangsorut_rebuild(
            m: N, n: N, w: N, count: N, a: N, b: N, stripe: Out, length: N, workspace: Out, workspace_length: N,
        ) -> N;
        pub fn bangsorut_fill(
            m: N, n: N, w: N, stripe: In, length: N, count: N, a: N, b: N, wanted: N, buffer: Out, buffer_length: N,
        ) -> N;
        pub fn bangsorut_choose(
            m: N, n: N, w: N, stripe: In, length: N, count: N, a: N, b: N, wanted: N, buffer: In, buffer_length: N,
            part: &mut [N; 3],
        );
        pub fn bangsorut_column(m: N, n: N, w: N, stripe: In, length: N, column: N, part: &mut [N; 2]);
        pub fn bangsorut_prices(m: N, n: N, w: N, prices: &mut [N; 4]) -> N;
        pub fn bangsorut_stock(number: N, shape: &mut [N; 3]) -> N;
    }
}

pub fn encode(Shape { m, n, w }: Shape, stripe: &mut [u8]) -> usize {
    unsafe { archive::bangsorut_encode(m, n, w, stripe.as_mut_ptr(), stripe.len()) }
}

pub fn check(Shape { m, n, w }: Shape, stripe: &[u8], counts: &mut [usize; 2]) -> usize {
    unsafe { archive::bangsorut_check(m, n, w, stripe.as_ptr(), stripe.len(), counts) }
}

pub fn locate(Shape { m, n, w }: Shape, stripe: &[u8], found: &mut [usize; 2]) -> usize {
    unsafe { archive::bangsorut_locate(m, n, w, stripe.as_ptr(), stripe.len(), found) }
}

pub fn small_write(shape: Shape, stripe: &mut [u8], column: usize, row: usize, symbol: &[u8]) -> usize {
    let Shape { m, n, w } = shape;
    let (bytes, length) = (stripe.as_mut_ptr(), stripe.len());
    unsafe { archive::bangsorut_small_write(m, n, w, bytes, length, column, row, symbol.as_ptr(), symbol.len()) }
}

pub fn raw_store(shape: Shape, stripe: &mut [u8], column: usize, row: usize, symbol: &[u8]) -> usize {
    let Shape { m, n, w } = shape;
    let (bytes, length) = (stripe.as_mut_ptr(), stripe.len());
    unsafe { archive::bangsorut_raw_store(m, n, w, bytes, length, column, row, symbol.as_ptr(), symbol.len()) }
}

pub fn rebuild(shape: Shape, lost: Named, stripe: &mut [u8], workspace: &mut [u8]) -> usize {
    let (Shape { m, n, w }, Named { count, a, b }) = (shape, lost);
    let (bytes, length) = (stripe.as_mut_ptr(), stripe.len());
    let (work, work_length) = (workspace.as_mut_ptr(), workspace.len());
    unsafe { archive::bangsorut_rebuild(m, n, w, count, a, b, bytes, length, work, work_length) }
}

pub fn fill(shape: Shape, stripe: &[u8], lost: Named, wanted: usize, buffer: &mut [u8]) -> usize {
    let (Shape { m, n, w }, Named { count, a, b }) = (shape, lost);
    let (bytes, length) = (stripe.as_ptr(), stripe.len());
    let (room, room_length) = (buffer.as_mut_ptr(), buffer.len());
    unsafe { archive::bangsorut_fill(m, n, w, bytes, length, count, a, b, wanted, room, room_length) }
}

pub fn choose(shape: Shape, stripe: &[u8], lost: Named, wanted: usize, buffer: &[u8], part: &mut [usize; 3]) {
    let (Shape { m, n, w }, Named { count, a, b }) = (shape, lost);
    let (bytes, length) = (stripe.as_ptr(), stripe.len());
    let (room, room_length) = (buffer.as_ptr(), buffer.len());
    unsafe { archive::bangsorut_choose(m, n, w, bytes, length, count, a, b, wanted, room, room_length, part) }
}

pub fn column(shape: Shape, stripe: &[u8], column: usize, part: &mut [usize; 2]) {
    let Shape { m, n, w } = shape;
    unsafe { archive::bangsorut_column(m, n, w, stripe.as_ptr(), stripe.len(), column, part) }
}

pub fn prices(Shape { m, n, w }: Shape, prices: &mut [usize; 4]) -> usize {
    unsafe { archive::bangsorut_prices(m, n, w, prices) }
}

pub fn stock(number: usize, shape: &mut [usize; 3]) -> usize {
    unsafe { archive::bangsorut_stock(number, shape) }
}
