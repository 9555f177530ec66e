//! The sample files: a network of six layers over a picture of 24 × 24 bytes that says in which ninth of the picture a
//! motif's centre lies, and what the walk program does with it. The weights are set by hand; nothing is trained.

pub mod record;

use record::{add, conv, full, head, Conv, Scale};

const SIDE: usize = 24;
const BACKGROUND: u8 = 16;
const THREAD: u8 = 200;

/// The folders that keep the files: the one to try things with, and the one whose files the gate gives the walk program. They are
/// two, since the kit takes no link.
pub const FOLDERS: [&str; 2] = ["samples", "crates/walk/data"];

/// A file's name there, and its bytes.
pub fn files() -> Vec<(&'static str, Vec<u8>)> {
    vec![
        ("centre.net", network()),
        ("picture.bytes", picture()),
        ("rows-15-to-17.bytes", changed_rows()),
        ("layer-3.record", third_layer(-4, 96)),
    ]
}

/// The motif's cells, by rows and columns from its centre.
fn diamond(row: i32, column: i32) -> bool {
    row.abs() + column.abs() <= 2
}

fn network() -> Vec<u8> {
    let even = Scale { multiplier: 1 << 30, shift: 0 };
    let twentieth = Scale { multiplier: 1 << 30, shift: 19 };
    let mut bytes = head(SIDE as u16, SIDE as u16, 1, BACKGROUND, 6);
    bytes.extend(first_layer());
    bytes.extend(conv(Conv { kernel: 3, stride: 2, padding: 1, scale: halved(5) }, &second_layer()));
    bytes.extend(third_layer(7, 7));
    bytes.extend(add(2, [even, even, twentieth]));
    bytes.extend(conv(Conv { kernel: 2, stride: 2, padding: 0, scale: halved(5) }, &[vec![8; 16]]));
    bytes.extend(full(halved(3), &ninths()));
    bytes
}

/// 1 / 2^(shift + 1).
fn halved(shift: u8) -> Scale {
    Scale { multiplier: 1 << 30, shift }
}

/// Tensor 1: how far the 5 × 5 cells around a place are the motif, and how bright they are.
fn first_layer() -> Vec<u8> {
    let cells = || (-2..=2).flat_map(|row| (-2..=2).map(move |column| (row, column)));
    let likeness = cells().map(|(row, column)| if diamond(row, column) { 16 } else { -16 }).collect();
    let brightness = cells().map(|_| 4).collect();
    conv(Conv { kernel: 5, stride: 1, padding: 2, scale: halved(6) }, &[likeness, brightness])
}

/// Tensor 2, at every second place: likeness around, brightness around, likeness less brightness, likeness at the middle.
fn second_layer() -> Vec<Vec<i8>> {
    let both = |likeness: i8, brightness: i8| [likeness, brightness].repeat(9);
    let mut middle = vec![0; 18];
    middle[8] = 64;
    vec![both(8, 0), both(0, 4), both(12, -4), middle]
}

/// Tensor 3: each channel of tensor 2, with one weight for the places around and one for the middle.
fn third_layer(around: i8, middle: i8) -> Vec<u8> {
    let weight = |place: usize| if place == 4 { middle } else { around };
    let filter = |channel: usize| (0..36).map(|i| if i % 4 == channel { weight(i / 4) } else { 0 }).collect();
    conv(Conv { kernel: 3, stride: 1, padding: 1, scale: halved(5) }, &(0..4).map(filter).collect::<Vec<_>>())
}

/// Tensor 6: of the 6 × 6 places of tensor 5, the four of each ninth, less what the others hold.
fn ninths() -> Vec<Vec<i8>> {
    let ninth = |place: usize| (place / 6 / 2) * 3 + place % 6 / 2;
    (0..9).map(|output| (0..36).map(|place| if ninth(place) == output { 24 } else { -1 }).collect()).collect()
}

/// A diamond with its centre at row 5, column 5, on a background that is not quite even.
fn picture() -> Vec<u8> {
    let mut bytes = background();
    draw(&mut bytes, 5, 5);
    bytes
}

/// Rows 15 to 17 with the middle of a second diamond, whose centre is at row 16, column 18.
fn changed_rows() -> Vec<u8> {
    let mut bytes = background();
    draw(&mut bytes, 16, 18);
    bytes[15 * SIDE..18 * SIDE].to_vec()
}

fn background() -> Vec<u8> {
    (0..SIDE * SIDE).map(|place| BACKGROUND + (place * place % 7) as u8).collect()
}

fn draw(bytes: &mut [u8], row: i32, column: i32) {
    for (place, byte) in bytes.iter_mut().enumerate() {
        if diamond((place / SIDE) as i32 - row, (place % SIDE) as i32 - column) {
            *byte = THREAD;
        }
    }
}
