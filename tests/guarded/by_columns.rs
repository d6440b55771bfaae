//! Calls of the entries that are lent rows in three lists.

use crate::exported::*;
use crate::lent::Lent;
use crate::made::Inputs;
use second::call::{Call, Entry};

/// A call of the density test.
fn density(call: &Call, inputs: &mut Inputs) -> Vec<u64> {
    let [costs, deadlines, periods] = &mut inputs.columns;
    let (costs, costs_length) = costs.pointer_and_length();
    let (deadlines, deadlines_length) = deadlines.pointer_and_length();
    let (periods, periods_length) = periods.pointer_and_length();
    // SAFETY: each pointer is to as many elements as its length says, and they live past the call.
    unsafe {
        circuitrail_density_columns(
            costs,
            costs_length,
            deadlines,
            deadlines_length,
            periods,
            periods_length,
            call.processors,
        )
        .into()
    }
}

/// A call of an entry that writes nothing.
pub fn answered(call: &Call, inputs: &mut Inputs) -> Vec<u64> {
    if call.entry == Entry::DensityColumns {
        return density(call, inputs);
    }
    let [costs, deadlines, periods] = &mut inputs.columns;
    let (costs, costs_length) = costs.pointer_and_length();
    let (deadlines, deadlines_length) = deadlines.pointer_and_length();
    let (periods, periods_length) = periods.pointer_and_length();
    let (bounds, bounds_length) = inputs.bounds.pointer_and_length();
    // SAFETY: each pointer is to as many elements as its length says, and they live past the call.
    unsafe {
        match call.entry {
            Entry::OneRowColumns => circuitrail_one_row_columns(
                costs,
                costs_length,
                deadlines,
                deadlines_length,
                periods,
                periods_length,
                call.processors,
                call.method,
                bounds,
                bounds_length,
                call.row,
            )
            .into(),
            _ => circuitrail_one_processor_columns(
                costs,
                costs_length,
                deadlines,
                deadlines_length,
                periods,
                periods_length,
                call.horizon,
            )
            .into(),
        }
    }
}

/// A call of an entry that writes words.
pub fn to_words(call: &Call, inputs: &mut Inputs, out: &mut Lent<u32>) -> Vec<u64> {
    let engine = match call.entry {
        Entry::RefineRoundsColumns => circuitrail_refine_rounds_columns,
        _ => circuitrail_refine_at_once_columns,
    };
    let [costs, deadlines, periods] = &mut inputs.columns;
    let (costs, costs_length) = costs.pointer_and_length();
    let (deadlines, deadlines_length) = deadlines.pointer_and_length();
    let (periods, periods_length) = periods.pointer_and_length();
    let (pointer, room) = out.pointer_and_length();
    // SAFETY: each pointer is to as many elements as its length says, they live past the call, and the output overlaps nothing.
    unsafe {
        engine(
            costs,
            costs_length,
            deadlines,
            deadlines_length,
            periods,
            periods_length,
            call.processors,
            call.method,
            pointer,
            room,
        )
        .into()
    }
}

/// A call of an entry that writes a text.
pub fn to_text(call: &Call, inputs: &mut Inputs, out: &mut Lent<u8>) -> Vec<u64> {
    let [costs, deadlines, periods] = &mut inputs.columns;
    let (costs, costs_length) = costs.pointer_and_length();
    let (deadlines, deadlines_length) = deadlines.pointer_and_length();
    let (periods, periods_length) = periods.pointer_and_length();
    let (pointer, room) = out.pointer_and_length();
    // SAFETY: each pointer is to as many elements as its length says, they live past the call, and the output overlaps nothing.
    unsafe {
        circuitrail_write_result_columns(
            costs,
            costs_length,
            deadlines,
            deadlines_length,
            periods,
            periods_length,
            call.processors,
            call.method,
            pointer,
            room,
        )
        .into()
    }
}
