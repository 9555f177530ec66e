//! The C interface over the second implementation, so that the wrapper can be tested where the archive is not.

use std::slice::{from_raw_parts, from_raw_parts_mut};

use clew::State;
use second::{state_from_numbers, state_to_numbers};

/// What the wrapper lends: its lengths and numbers come from a `usize`, so the casts back lose nothing.
unsafe fn lent<'a, T>(start: *const T, length: u64) -> &'a [T] {
    from_raw_parts(start, length as usize)
}

unsafe fn lent_mut<'a, T>(start: *mut T, length: u64) -> &'a mut [T] {
    from_raw_parts_mut(start, length as usize)
}

#[no_mangle]
unsafe extern "C" fn clew_load(
    network: *const u8,
    network_length: u64,
    sums: *mut u32,
    sums_length: u64,
    area: *const u8,
    area_length: u64,
    state: *mut State,
) -> u8 {
    let outcome = second::load(lent(network, network_length), lent_mut(sums, sums_length), lent(area, area_length));
    *state = state_to_numbers(&outcome.state);
    outcome.number
}

#[no_mangle]
unsafe extern "C" fn clew_change_rows(
    network: *const u8,
    network_length: u64,
    sums: *const u32,
    sums_length: u64,
    area: *mut u8,
    area_length: u64,
    state: *mut State,
    first: u64,
    count: u64,
    rows: *const u8,
    rows_length: u64,
) -> u8 {
    let outcome = second::change_rows(
        lent(network, network_length),
        lent(sums, sums_length),
        lent_mut(area, area_length),
        state_from_numbers(&*state),
        first as usize,
        count as usize,
        lent(rows, rows_length),
    );
    *state = state_to_numbers(&outcome.state);
    outcome.number
}

#[no_mangle]
unsafe extern "C" fn clew_replace_layer(
    network: *mut u8,
    network_length: u64,
    sums: *mut u32,
    sums_length: u64,
    area: *const u8,
    area_length: u64,
    state: *mut State,
    layer: u64,
    record: *const u8,
    record_length: u64,
) -> u8 {
    let outcome = second::replace_layer(
        lent_mut(network, network_length),
        lent_mut(sums, sums_length),
        lent(area, area_length),
        state_from_numbers(&*state),
        layer as usize,
        lent(record, record_length),
    );
    *state = state_to_numbers(&outcome.state);
    outcome.number
}

#[no_mangle]
unsafe extern "C" fn clew_update(
    network: *const u8,
    network_length: u64,
    sums: *const u32,
    sums_length: u64,
    area: *mut u8,
    area_length: u64,
    state: *mut State,
    count: *mut u32,
) -> u8 {
    let outcome = second::update(
        lent(network, network_length),
        lent(sums, sums_length),
        lent_mut(area, area_length),
        state_from_numbers(&*state),
    );
    *state = state_to_numbers(&outcome.state);
    *count = outcome.count;
    outcome.number
}

#[no_mangle]
unsafe extern "C" fn clew_read(
    network: *const u8,
    network_length: u64,
    sums: *const u32,
    sums_length: u64,
    area: *const u8,
    area_length: u64,
    state: *const State,
    out: *mut u8,
    out_length: u64,
) -> u8 {
    let outcome = second::read(
        lent(network, network_length),
        lent(sums, sums_length),
        lent(area, area_length),
        state_from_numbers(&*state),
        lent_mut(out, out_length),
    );
    outcome.number
}

#[no_mangle]
unsafe extern "C" fn clew_sizes(network: *const u8, network_length: u64, sizes: *mut [u32; 4]) -> u8 {
    let answer = second::sizes(lent(network, network_length));
    *sizes = answer.to_numbers();
    answer.number
}
