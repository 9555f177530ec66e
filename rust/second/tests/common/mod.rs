//! What the tests share: the document's network K, records written out, and a world with its buffers.

#![allow(dead_code)] // each test file uses its own part

use second::{decode, Band, Outcome, State, ALL_EMPTY};

/// Network K, 39 bytes.
pub const K: [u8; 39] = [
    0x4E, 0x48, 0x03, 0x00, 0x01, 0x00, 0x01, 0x0A, 0x01, 0x00, // head
    0x43, 0x56, 0x01, 0x03, 0x03, 0x01, 0x01, 0x00, 0x00, 0x00, 0xFF, 0x00, 0x00, 0x00, 0x00, 0x40, // convolution
    0x00, 0x00, 0x00, 0x00, // bias
    0x01, 0x01, 0x01, 0x01, 0x01, 0x01, 0x01, 0x01, 0x01, // weights
];

pub const TWO_30: u32 = 1 << 30;

pub fn head(rows: u16, columns: u16, channels: u8, zero_point: u8, layers: u8) -> Vec<u8> {
    let mut bytes = vec![0x4E, 0x48];
    bytes.extend(rows.to_le_bytes());
    bytes.extend(columns.to_le_bytes());
    bytes.extend([channels, zero_point, layers, 0]);
    bytes
}

/// Kernel rows, kernel columns, stride, padding; weight zero-point 0, clamp 0..255, multiplier 2^30, shift 0.
pub fn conv(filters: u8, shape: [u8; 4], zero_point: u8, biases: &[i32], weights: &[u8]) -> Vec<u8> {
    let mut bytes = vec![0x43, 0x56, filters];
    bytes.extend(shape);
    bytes.extend([0, zero_point, 0, 255, 0]);
    bytes.extend(TWO_30.to_le_bytes());
    body(&mut bytes, biases, weights);
    bytes
}

/// Clamp 0..255, multiplier 2^30, shift 0.
pub fn full(weight_zero_point: u8, zero_point: u8, biases: &[i32], weights: &[u8]) -> Vec<u8> {
    let mut bytes = vec![0x46, 0x55];
    bytes.extend((biases.len() as u16).to_le_bytes());
    bytes.extend([weight_zero_point, zero_point, 0, 255, 0, 0]);
    bytes.extend(TWO_30.to_le_bytes());
    body(&mut bytes, biases, weights);
    bytes
}

fn body(bytes: &mut Vec<u8>, biases: &[i32], weights: &[u8]) {
    for bias in biases {
        bytes.extend(bias.to_le_bytes());
    }
    bytes.extend(weights);
}

/// Clamp 0..255, multipliers 2^30.
pub fn add(j: u8, zero_point: u8, shifts: [u8; 3]) -> Vec<u8> {
    let mut bytes = vec![0x41, 0x44, j, zero_point, 0, 255];
    for _ in 0..3 {
        bytes.extend(TWO_30.to_le_bytes());
    }
    bytes.extend(shifts);
    bytes.push(0);
    bytes
}

pub fn band(first: usize, end: usize) -> Band {
    Band { first, end }
}

/// A state with these bands first, the others empty.
pub fn bands(first_ones: &[(usize, usize)]) -> State {
    let mut state = ALL_EMPTY;
    for (tensor, &(first, end)) in first_ones.iter().enumerate() {
        state[tensor] = band(first, end);
    }
    state
}

/// A network with the buffers it needs and the latest state.
pub struct World {
    pub file: Vec<u8>,
    pub sums: Vec<u32>,
    pub area: Vec<u8>,
    pub state: State,
}

impl World {
    /// Buffers of just the length needed, loaded; the picture is written straight into the area.
    pub fn loaded(file: &[u8], picture: &[u8]) -> World {
        let network = decode(file).expect("a good network");
        let mut world = World {
            file: file.to_vec(),
            sums: vec![0; network.sums_needed()],
            area: vec![0; network.area_bytes()],
            state: ALL_EMPTY,
        };
        world.area[..picture.len()].copy_from_slice(picture);
        let outcome = second::load(&world.file, &mut world.sums, &world.area);
        world.take(outcome);
        world
    }

    /// As `loaded`, and updated.
    pub fn updated(file: &[u8], picture: &[u8]) -> World {
        let mut world = World::loaded(file, picture);
        world.update().expect("an update after a load");
        world
    }

    fn take(&mut self, outcome: Outcome) -> u8 {
        self.state = outcome.state;
        outcome.number
    }

    /// The count, or the refusal's number.
    pub fn update(&mut self) -> Result<u32, u8> {
        let outcome = second::update(&self.file, &self.sums, &mut self.area, self.state);
        match self.take(outcome) {
            0 => Ok(outcome.count),
            number => Err(number),
        }
    }

    pub fn change_rows(&mut self, first: usize, count: usize, rows: &[u8]) -> u8 {
        let outcome = second::change_rows(&self.file, &self.sums, &mut self.area, self.state, first, count, rows);
        self.take(outcome)
    }

    pub fn replace_layer(&mut self, k: usize, record: &[u8]) -> u8 {
        let outcome = second::replace_layer(&mut self.file, &mut self.sums, &self.area, self.state, k, record);
        self.take(outcome)
    }

    pub fn read(&mut self, out: &mut [u8]) -> u8 {
        let outcome = second::read(&self.file, &self.sums, &self.area, self.state, out);
        self.take(outcome)
    }

    /// The last tensor of a fresh run over the present network and picture.
    pub fn fresh(&self) -> Vec<u8> {
        let network = decode(&self.file).expect("a good network");
        let picture = &self.area[network.area_place(0)];
        second::fresh_run(&network, picture).pop().expect("a last tensor")
    }
}
