//! The refusals: every number of the table that applies to a call; the lowest is the answer.

use super::call::{Call, Kind};
use super::stripe::Code;
use super::unknowns::survivors_agree;
use crate::mistakes::{right, wrong, SWAPPED_ORDERS};

/// The answer to a call: the lowest reason, or 0 if there is none.
pub fn lowest(reasons: &[u8]) -> u8 {
    let lowest = reasons.iter().copied().min().unwrap_or(0);
    for (name, low, high) in SWAPPED_ORDERS {
        if lowest == *low && reasons.contains(high) && wrong(name) {
            return *high;
        }
    }
    lowest
}

/// Every refusal number that applies to the call.
pub fn reasons(call: &Call) -> Vec<u8> {
    match call.kind {
        Kind::Stock => stock_reasons(call),
        Kind::Prices => price_reasons(call),
        _ => stripe_reasons(call),
    }
}

fn stock_reasons(call: &Call) -> Vec<u8> {
    match call.stock_shape() {
        Some(_) => Vec::new(),
        None => vec![10],
    }
}

fn price_reasons(call: &Call) -> Vec<u8> {
    let mut reasons = call.shape.reasons();
    if wrong("price-ignores-w") {
        reasons.retain(|&reason| reason != 3);
    }
    reasons
}

/// The reasons of a call that works on a stripe.
fn stripe_reasons(call: &Call) -> Vec<u8> {
    let mut reasons = call.shape.reasons();
    let mut note = |applies: bool, number: u8| {
        if applies {
            reasons.push(number);
        }
    };
    note(stripe_is_misfit(call), 4);
    note(workspace_is_short(call), 5);
    note(names_wrong_column(call) || names_wrong_row(call), 6);
    note(names_column_twice(call), 7);
    note(symbol_is_misfit(call) || answer_buffer_is_short(call), 8);
    let survivors_are_known = reasons.iter().all(|&reason| reason == 5);
    if survivors_are_known && survivors_disagree(call) {
        reasons.push(9);
    }
    reasons
}

fn stripe_is_misfit(call: &Call) -> bool {
    if wrong("column-any-stripe-length") && call.kind == Kind::Column {
        return false;
    }
    if wrong("stripe-longer-good") {
        return (call.buffer1.len() as u128) < call.shape.stripe_bytes();
    }
    call.buffer1.len() as u128 != call.shape.stripe_bytes()
}

fn workspace_is_short(call: &Call) -> bool {
    let needed = call.shape.workspace_bytes();
    let half = if call.a < 2 { call.shape.column_bytes() } else { needed };
    let more = needed.saturating_add(1);
    let needed =
        right(needed, &[("workspace-half-for-one-lost", half), ("workspace-must-be-longer", more)]);
    call.kind == Kind::Rebuild && (call.buffer2.len() as u128) < needed
}

/// Every column the call names: 6 covers the lost ones and the wanted one alike.
fn named_columns(call: &Call) -> Vec<u64> {
    match call.kind {
        Kind::SmallWrite | Kind::RawStore | Kind::Column => vec![call.a],
        Kind::Rebuild => call.lost(),
        Kind::Fill | Kind::Choose if wrong("wanted-beyond-is-survivor") => call.lost(),
        Kind::Fill | Kind::Choose => [call.lost(), vec![call.d]].concat(),
        _ => Vec::new(),
    }
}

fn names_wrong_column(call: &Call) -> bool {
    named_columns(call).iter().any(|&column| column >= call.shape.n)
}

/// Small write takes the information rows alone, raw store every row.
fn names_wrong_row(call: &Call) -> bool {
    let row = u128::from(call.b);
    let rows = u128::from(call.shape.m);
    match call.kind {
        Kind::SmallWrite if wrong("small-write-takes-parity-row") => row >= rows,
        Kind::SmallWrite => row + 1 >= rows,
        Kind::RawStore if wrong("raw-store-refuses-parity-row") => row + 1 >= rows,
        Kind::RawStore => row >= rows,
        _ => false,
    }
}

fn names_column_twice(call: &Call) -> bool {
    if wrong("same-column-is-one-lost") {
        return false;
    }
    let lost = call.lost();
    lost.len() == 2 && lost[0] == lost[1]
}

fn symbol_is_misfit(call: &Call) -> bool {
    let length = call.buffer2.len() as u128;
    match call.kind {
        Kind::SmallWrite | Kind::RawStore if wrong("longer-symbol-good") => {
            length < u128::from(call.shape.w)
        }
        Kind::SmallWrite | Kind::RawStore => length != u128::from(call.shape.w),
        _ => false,
    }
}

fn answer_buffer_is_short(call: &Call) -> bool {
    let survives = !call.lost().contains(&call.d);
    if wrong("buffer-not-needed-by-survivor") && survives {
        return false;
    }
    let length = call.buffer2.len() as u128;
    let needed = call.shape.column_bytes();
    let is_short = right(
        length < needed,
        &[
            ("buffer-must-fit-exactly", length != needed),
            ("buffer-as-workspace", length < call.shape.workspace_bytes()),
        ],
    );
    call.reads_column() && is_short
}

/// Asked only once the shape, the stripe and the lost columns are known to be good.
fn survivors_disagree(call: &Call) -> bool {
    let is_asked = match call.kind {
        Kind::Rebuild if wrong("rebuild-never-9") => false,
        Kind::Rebuild if wrong("rebuild-none-lost-is-done") => call.a > 0,
        Kind::Rebuild => true,
        Kind::Fill => wrong("fill-refuses-9"),
        _ => false,
    };
    is_asked && !survivors_agree(Code::of(call.shape), &call.buffer1, &call.lost_indices())
}
