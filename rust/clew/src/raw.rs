//! The calls over lent slices, each giving its number: 0 is done, 1 to 9 a refusal.
//!
//! The calls ask nothing of their caller but that each pointer goes with its length, and that no lent buffer overlaps
//! another that is written. Slices and references have just that.

/// First and end of the band of tensor 0, then of tensor 1, and so on to tensor 16.
pub type State = [u16; 34];

extern "C" {
    fn clew_load(
        network: *const u8,
        network_length: u64,
        sums: *mut u32,
        sums_length: u64,
        area: *const u8,
        area_length: u64,
        state: *mut State,
    ) -> u8;

    fn clew_change_rows(
        network: *const u8,
        network_length: u64,
        sums: *const u32,
        sums_length: u64,
        area: *mut u8,
        area_length: u64,
        state: *mut State,
        first: u64,
        count: u64,
        rows: *const u8,
        rows_length: u64,
    ) -> u8;

    fn clew_replace_layer(
        network: *mut u8,
        network_length: u64,
        sums: *mut u32,
        sums_length: u64,
        area: *const u8,
        area_length: u64,
        state: *mut State,
        layer: u64,
        record: *const u8,
        record_length: u64,
    ) -> u8;

    fn clew_update(
        network: *const u8,
        network_length: u64,
        sums: *const u32,
        sums_length: u64,
        area: *mut u8,
        area_length: u64,
        state: *mut State,
        count: *mut u32,
    ) -> u8;

    fn clew_read(
        network: *const u8,
        network_length: u64,
        sums: *const u32,
        sums_length: u64,
        area: *const u8,
        area_length: u64,
        state: *const State,
        out: *mut u8,
        out_length: u64,
    ) -> u8;

    fn clew_sizes(network: *const u8, network_length: u64, sizes: *mut [u32; 4]) -> u8;
}

/// A slice's length as the C interface has it: 64 bits on every machine, so that no cast loses any.
fn length<T>(slice: &[T]) -> u64 {
    slice.len() as u64
}

/// Fills the sums, and writes the state: everything stale, or the all-stale state if it refuses.
pub fn load(network: &[u8], sums: &mut [u32], area: &[u8], state: &mut State) -> u8 {
    // SAFETY: each pointer comes from a slice or reference that lives through the call, with the slice's own length.
    unsafe {
        clew_load(
            network.as_ptr(),
            length(network),
            sums.as_mut_ptr(),
            length(sums),
            area.as_ptr(),
            length(area),
            state,
        )
    }
}

/// Writes picture rows `first` to `first + count − 1`.
pub fn change_rows(
    network: &[u8],
    sums: &[u32],
    area: &mut [u8],
    state: &mut State,
    first: usize,
    count: usize,
    rows: &[u8],
) -> u8 {
    // SAFETY: as in `load`.
    unsafe {
        clew_change_rows(
            network.as_ptr(),
            length(network),
            sums.as_ptr(),
            length(sums),
            area.as_mut_ptr(),
            length(area),
            state,
            first as u64,
            count as u64,
            rows.as_ptr(),
            length(rows),
        )
    }
}

/// Writes `record` over that of a layer, counted from 1, and its sums.
pub fn replace_layer(
    network: &mut [u8],
    sums: &mut [u32],
    area: &[u8],
    state: &mut State,
    layer: usize,
    record: &[u8],
) -> u8 {
    // SAFETY: as in `load`.
    unsafe {
        clew_replace_layer(
            network.as_mut_ptr(),
            length(network),
            sums.as_mut_ptr(),
            length(sums),
            area.as_ptr(),
            length(area),
            state,
            layer as u64,
            record.as_ptr(),
            length(record),
        )
    }
}

/// Recomputes what is stale; the number, and the count of bytes recomputed.
pub fn update(network: &[u8], sums: &[u32], area: &mut [u8], state: &mut State) -> (u8, u32) {
    // Not 0 beforehand: a refused update has to write its count too.
    let mut count = u32::MAX;
    // SAFETY: as in `load`.
    let number = unsafe {
        clew_update(
            network.as_ptr(),
            length(network),
            sums.as_ptr(),
            length(sums),
            area.as_mut_ptr(),
            length(area),
            state,
            &mut count,
        )
    };
    (number, count)
}

/// Copies the last tensor to `out`.
pub fn read(network: &[u8], sums: &[u32], area: &[u8], state: &State, out: &mut [u8]) -> u8 {
    // SAFETY: as in `load`.
    unsafe {
        clew_read(
            network.as_ptr(),
            length(network),
            sums.as_ptr(),
            length(sums),
            area.as_ptr(),
            length(area),
            state,
            out.as_mut_ptr(),
            length(out),
        )
    }
}

/// The number of tests 1 to 3, and the bytes of the picture, the stored sums, the bytes of the area and those of a
/// reading; all four are 0 where it refuses.
pub fn sizes(network: &[u8]) -> (u8, [u32; 4]) {
    // Not 0 beforehand: a refusal has to write its 0s too.
    let mut sizes = [u32::MAX; 4];
    // SAFETY: as in `load`.
    let number = unsafe { clew_sizes(network.as_ptr(), length(network), &mut sizes) };
    (number, sizes)
}
