//! What one call reaches.

use super::possible::pair;
use super::Tally;
use crate::model::call::{Call, Kind, Outcome};
use crate::model::outer::{order, Order};
use crate::model::reasons::{lowest, reasons};
use crate::model::shape::{Shape, STOCK};
use crate::model::stripe::{check, Code, Symbol};
use crate::model::unknowns::survivors_agree;

pub fn note(tally: &mut Tally, call: &Call, outcome: &Outcome) {
    let reasons = reasons(call);
    let answer = lowest(&reasons);
    note_answer(tally, call, &reasons);
    if call.kind == Kind::Stock {
        return note_stock(tally, call.a);
    }
    note_shape(tally, call, answer);
    note_columns(tally, call);
    if reasons.iter().all(|&reason| reason > 4) {
        note_buffer2(tally, call);
    }
    note_stale_workspace(tally, call, answer);
    if answer == 0 && call.kind != Kind::Prices {
        note_work(tally, call, outcome);
    }
    if answer == 0 || answer == 9 {
        note_losses(tally, call, outcome, answer);
    }
}

/// A kind as the tally names it.
pub fn name(kind: Kind) -> &'static str {
    match kind {
        Kind::Encode => "encode",
        Kind::Check => "check",
        Kind::Locate => "locate",
        Kind::SmallWrite => "small write",
        Kind::RawStore => "raw store",
        Kind::Rebuild => "rebuild",
        Kind::Fill => "fill",
        Kind::Choose => "choose",
        Kind::Column => "column",
        Kind::Prices => "prices",
        Kind::Stock => "stock",
    }
}

fn note_answer(tally: &mut Tally, call: &Call, reasons: &[u8]) {
    let (name, answer) = (name(call.kind), lowest(reasons));
    let lost = ["none", "one", "two"];
    match call.has_losses() {
        true => tally.note(format!("{name}, {} lost answers {answer}", lost[call.a as usize])),
        false => tally.note(format!("{name} answers {answer}")),
    }
    for higher in reasons.iter().filter(|&&reason| reason != answer) {
        tally.note(format!("{name}: {answer} though {higher} applies too"));
    }
    let full = call.buffer1.len() == 66_000 && call.buffer2.len() == 20_000;
    tally.note_if(full, "buffers of 66,000 and 20,000 bytes");
    let is_used = call.has_losses() || matches!(call.kind, Kind::SmallWrite | Kind::RawStore);
    tally.note_if(!is_used && !call.buffer2.is_empty(), "buffer lent without use");
}

fn note_stock(tally: &mut Tally, number: u64) {
    match number {
        u64::MAX => tally.note("stock number 2^64-1"),
        _ => tally.note(format!("stock number {number}")),
    }
}

/// A number as the tally names it.
fn named(number: u64) -> String {
    match number {
        u64::MAX => "2^64-1".to_string(),
        _ => number.to_string(),
    }
}

fn note_shape(tally: &mut Tally, call: &Call, answer: u8) {
    let Shape { m, n, w } = call.shape;
    for (letter, number) in [("m", m), ("n", n), ("w", w)] {
        tally.note(format!("{letter} is {}", named(number)));
    }
    let rows_are_good = (2..=16).contains(&m);
    tally.note_if(rows_are_good && n == 4 * m.min(16) - 3, "n is 4m-3");
    tally.note_if(rows_are_good && n == 4 * m.min(16) - 4, "n is 4m-4");
    let size = call.shape.stripe_bytes();
    let is_next = w > 1 && w <= 4_096 && size > 65_536 && Shape::new(m, n, w - 1).is_good();
    tally.note_if(is_next, "m·n·w is one symbol size over the limit");
    tally.note_if(call.shape.is_good() && size == 65_536, "m·n·w is 65,536");
    tally.note_if(size > u64::MAX.into(), "m·n·w over 2^64");
    let wrapped = u128::from(m.wrapping_mul(n).wrapping_mul(w));
    let only_wrapped = wrapped != size && wrapped == call.buffer1.len() as u128;
    tally.note_if(only_wrapped, "m·n·w is the stripe's length only modulo 2^64");
    let is_hidden = call.shape.is_good() && [call.a, call.b].iter().any(|a| a >> 32 != 0);
    tally.note_if(is_hidden && answer == 6, "good shape, upper half of a number not zero");
    let stock = STOCK.iter().position(|shape| *shape == call.shape);
    if let (Some(number), 0) = (stock, answer) {
        tally.note_if(call.kind != Kind::Prices, format!("stripe of stock shape {number}"));
    }
}

/// The edges of columns and rows, with a good shape.
fn note_columns(tally: &mut Tally, call: &Call) {
    if !call.shape.is_good() {
        return;
    }
    let name = name(call.kind);
    let mut columns = call.lost();
    match call.kind {
        Kind::SmallWrite | Kind::RawStore | Kind::Column => columns.push(call.a),
        Kind::Fill | Kind::Choose => columns.push(call.d),
        _ => {}
    }
    for (edge, at) in [("n-1", call.shape.n - 1), ("n", call.shape.n), ("2^64-1", u64::MAX)] {
        tally.note_if(columns.contains(&at), format!("{name}: column {edge}"));
    }
    let m = call.shape.m;
    for (edge, at) in [("m-2", m - 2), ("m-1", m - 1), ("m", m), ("2^64-1", u64::MAX)] {
        tally.note_if(call.b == at, format!("{name}: row {edge}"));
    }
    let lost = call.lost();
    if lost.len() == 2 && lost[0] == lost[1] {
        tally.note_if(lost[0] < call.shape.n, "same columns, below n");
        tally.note_if(lost[0] >= call.shape.n, "same columns, n or more");
    }
}

/// How long the second buffer is beside what is needed.
fn note_buffer2(tally: &mut Tally, call: &Call) {
    let (what, needed) = match call.kind {
        Kind::SmallWrite | Kind::RawStore => ("symbol", u128::from(call.shape.w)),
        Kind::Rebuild => ("workspace", call.shape.workspace_bytes()),
        Kind::Fill => ("fill buffer", call.shape.column_bytes()),
        Kind::Choose => ("choose buffer", call.shape.column_bytes()),
        _ => return,
    };
    let length = call.buffer2.len() as u128;
    tally.note_if(length == 0, format!("{what}: empty"));
    tally.note_if(length > 0 && length + 1 == needed, format!("{what}: one short"));
    tally.note_if(length == needed, format!("{what}: exact"));
    tally.note_if(length > needed, format!("{what}: longer"));
}

fn note_stale_workspace(tally: &mut Tally, call: &Call, answer: u8) {
    let is_stale = call.buffer2.iter().any(|&byte| byte != 0);
    tally
        .note_if(call.kind == Kind::Rebuild && is_stale, format!("stale workspace under {answer}"));
}

fn note_work(tally: &mut Tally, call: &Call, outcome: &Outcome) {
    let code = Code::of(call.shape);
    match call.kind {
        Kind::Check => {
            tally.note(if outcome.x[0] == 0 { "check: sound" } else { "check: broken" });
            tally.note_if(outcome.x[1] > 65_535, "check: over 65,535 bits");
        }
        Kind::Locate => {
            let found = ["sound", "one column", "more than one"][outcome.x[0] as usize];
            tally.note(format!("locate: {found}"));
        }
        Kind::SmallWrite => {
            let is_sound = check(code, &call.buffer1).0 == 0;
            tally.note(format!(
                "small write on a {} stripe",
                if is_sound { "sound" } else { "broken" }
            ));
        }
        Kind::Choose => {
            let from = if call.lost().contains(&call.d) { "buffer" } else { "stripe" };
            tally.note(format!("choose hands back the {from}"));
        }
        _ => {}
    }
}

/// What rebuild and fill reach once nothing but the survivors can matter.
fn note_losses(tally: &mut Tally, call: &Call, outcome: &Outcome, answer: u8) {
    if call.kind == Kind::Rebuild {
        note_rebuild(tally, call, outcome, answer);
    }
    if call.kind == Kind::Fill {
        note_fill(tally, call);
    }
}

/// The names of the kinds of pair that the lost columns are.
fn pair_kinds(code: Code, order: Order) -> Vec<&'static str> {
    let Some(second) = order.second else {
        return Vec::new();
    };
    let walk = (second + code.n - order.first) % code.n;
    let mut kinds = Vec::new();
    if order.first > second {
        kinds.push("around the edge");
    }
    if 2 * walk == code.n {
        kinds.push("both walks n/2");
    }
    if walk == 1 {
        kinds.push("neighbours");
    }
    if walk > code.m - 1 {
        kinds.push("more than m-1 apart");
    }
    kinds
}

fn note_rebuild(tally: &mut Tally, call: &Call, outcome: &Outcome, answer: u8) {
    let (code, lost) = (Code::of(call.shape), call.lost_indices());
    if answer == 0 && call.a > 0 {
        let was_right = outcome.buffer1 == call.buffer1;
        let what = if was_right { "were right already" } else { "were wrong" };
        tally.note(format!("rebuild 0, lost columns {what}"));
    }
    if lost.len() == 2 {
        for kind in pair_kinds(code, order(code, &lost)) {
            tally.note(format!("rebuild, {kind}: {answer}"));
        }
        note_pair(tally, call, &format!("rebuild {answer}"));
    }
}

fn note_pair(tally: &mut Tally, call: &Call, what: &str) {
    tally.note(pair(call.shape.m, call.shape.n, call.b, call.c, what));
}

fn note_fill(tally: &mut Tally, call: &Call) {
    let (code, lost, wanted) = (Code::of(call.shape), call.lost_indices(), call.d as usize);
    let agree = match survivors_agree(code, &call.buffer1, &lost) {
        true => "survivors agree",
        false => "survivors disagree",
    };
    if !lost.contains(&wanted) {
        return tally.note(format!("fill wants a survivor, {agree}"));
    }
    let order = order(code, &lost);
    let Some(second) = order.second else {
        return tally.note(format!("fill wants the only lost column, {agree}"));
    };
    let which = if wanted == second { "second" } else { "first" };
    tally.note(format!("fill wants the {which} lost column, {agree}"));
    note_pair(tally, call, "fill");
    let shows = order_shows(code, &call.buffer1, order, wanted);
    tally.note_if(shows, "fill, the order shows");
    for kind in pair_kinds(code, order) {
        tally.note(format!("fill, {kind}, {agree}"));
        tally.note_if(shows, format!("fill, {kind}, the tie shows"));
    }
}

/// Whether the wanted column would come out otherwise, were first and second exchanged.
fn order_shows(code: Code, stripe: &[u8], order: Order, wanted: usize) -> bool {
    let Some(second) = order.second else {
        return false;
    };
    let exchanged = Order { first: second, second: Some(order.first) };
    let solved =
        |order: Order, height| order.solve(code, stripe, Symbol { column: wanted, height });
    (0..code.m).any(|height| solved(order, height) != solved(exchanged, height))
}
