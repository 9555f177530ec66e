//! Damage to a network file or to a record: faults in every record and every field.

use std::ops::Range;

use second::{Kind, Layer, Network};

use super::records::kept_bytes;
use crate::rng::Rng;

/// A field of a record, and values at and beyond the ends of its range.
#[derive(Clone, Debug)]
pub struct Field {
    /// 0 is the head, 1 the first layer's record.
    pub record: usize,
    /// Where it stands in the file.
    pub place: Range<usize>,
    pub values: Vec<u32>,
}

/// One change to a file.
#[derive(Clone, Debug)]
pub enum Damage {
    /// Bytes at a place become those of a number.
    Set(Range<usize>, u32),
    /// The file ends earlier.
    Cut(usize),
    /// Bytes follow the file.
    Trail(Vec<u8>),
}

impl Damage {
    /// Later damage may find the file shorter than it was.
    pub fn apply(&self, file: &mut Vec<u8>) {
        match self {
            Damage::Set(place, value) => {
                if let Some(bytes) = file.get_mut(place.clone()) {
                    bytes.copy_from_slice(&value.to_le_bytes()[..bytes.len()]);
                }
            }
            Damage::Cut(length) => file.truncate(*length),
            Damage::Trail(bytes) => file.extend(bytes),
        }
    }
}

/// The file with these changes.
pub fn damaged(file: &[u8], damages: &[Damage]) -> Vec<u8> {
    let mut changed = file.to_vec();
    for damage in damages {
        damage.apply(&mut changed);
    }
    changed
}

const MARKS: [u32; 6] = [0x484E, 0x5643, 0x5546, 0x4441, 0, 0xFFFF];
const MULTIPLIERS: [u32; 6] = [0, (1 << 30) - 1, 1 << 30, (1 << 31) - 1, 1 << 31, u32::MAX];
const SHIFTS: [u32; 5] = [0, 31, 32, 63, 255];
const SPARES: [u32; 3] = [1, 128, 255];
const BYTES: [u32; 3] = [0, 1, 255];

fn biases() -> Vec<u32> {
    let greatest = 1 << 30;
    [greatest, greatest + 1, -greatest, -greatest - 1, i32::MAX, i32::MIN].map(|bias: i32| bias as u32).to_vec()
}

/// All fields of a file that is taken. Of the biases, those of the first and the last filter or output.
pub fn fields(network: &Network) -> Vec<Field> {
    let mut all = head_fields(network);
    for (record, layer) in (1..).zip(&network.layers) {
        all.extend(layer_fields(record, layer));
    }
    all
}

/// Collects the fields of one record: places counted from the record's beginning.
struct Fields {
    record: usize,
    start: usize,
    all: Vec<Field>,
}

impl Fields {
    fn push(&mut self, at: usize, bytes: usize, values: &[u32]) {
        let place = self.start + at..self.start + at + bytes;
        self.all.push(Field { record: self.record, place, values: values.to_vec() });
    }
}

fn head_fields(network: &Network) -> Vec<Field> {
    let mut fields = Fields { record: 0, start: 0, all: Vec::new() };
    let layers = network.layers.len() as u32;
    fields.push(0, 2, &MARKS);
    fields.push(2, 2, &[0, 1, 255, 256, 257, 65_535]);
    fields.push(4, 2, &[0, 1, 255, 256, 257, 65_535]);
    fields.push(6, 1, &[0, 1, 64, 65, 255]);
    fields.push(7, 1, &BYTES);
    fields.push(8, 1, &[0, 1, 16, 17, 255, layers - 1, layers + 1]);
    fields.push(9, 1, &SPARES);
    fields.all
}

fn layer_fields(record: usize, layer: &Layer) -> Vec<Field> {
    let mut fields = Fields { record, start: layer.place.start, all: Vec::new() };
    fields.push(0, 2, &MARKS);
    match &layer.kind {
        Kind::Conv(conv) => {
            let smaller_side = conv.kernel_rows.min(conv.kernel_columns) as u32;
            fields.push(2, 1, &[0, 1, 64, 65, 255]);
            fields.push(3, 1, &[0, 1, 7, 8, 255]);
            fields.push(4, 1, &[0, 1, 7, 8, 255]);
            fields.push(5, 1, &[0, 1, 4, 5, 255]);
            fields.push(6, 1, &[0, smaller_side - 1, smaller_side, smaller_side + 1, 255]);
            fields.push(7, 1, &BYTES);
            fields.push(8, 1, &BYTES);
            clamp_fields(&mut fields, 9);
            fields.push(11, 1, &SHIFTS);
            fields.push(12, 4, &MULTIPLIERS);
            bias_fields(&mut fields, 16, conv.filters);
        }
        Kind::Full(full) => {
            fields.push(2, 2, &[0, 1, 255, 256, 257, 65_535]);
            fields.push(4, 1, &BYTES);
            fields.push(5, 1, &BYTES);
            clamp_fields(&mut fields, 6);
            fields.push(8, 1, &SHIFTS);
            fields.push(9, 1, &SPARES);
            fields.push(10, 4, &MULTIPLIERS);
            bias_fields(&mut fields, 14, full.outputs);
        }
        Kind::Add(_) => {
            let k = record as u32;
            fields.push(2, 1, &[0, k.saturating_sub(2), k - 1, k, k + 1, 16, 255]);
            fields.push(3, 1, &BYTES);
            clamp_fields(&mut fields, 4);
            for at in [6, 10, 14] {
                fields.push(at, 4, &MULTIPLIERS);
            }
            for at in [18, 19, 20] {
                fields.push(at, 1, &SHIFTS);
            }
            fields.push(21, 1, &SPARES);
        }
    }
    fields.all
}

/// Low and high, each alone and both together out of order.
fn clamp_fields(fields: &mut Fields, at: usize) {
    fields.push(at, 1, &BYTES);
    fields.push(at + 1, 1, &BYTES);
    fields.push(at, 2, &[0x00FF, 0x7F80, 0x8080, 0x0001]);
}

fn bias_fields(fields: &mut Fields, at: usize, count: usize) {
    fields.push(at, 4, &biases());
    fields.push(at + 4 * (count - 1), 4, &biases());
}

/// Every value of every field, one at a time.
pub fn single(fields: &[Field]) -> Vec<Damage> {
    let of_field = |field: &Field| -> Vec<Damage> {
        field.values.iter().map(|&value| Damage::Set(field.place.clone(), value)).collect()
    };
    fields.iter().flat_map(of_field).collect()
}

/// Two changes at once: two fields, as often as not of the same record, or a field and a file cut or longer.
pub fn double(rng: &mut Rng, network: &Network, fields: &[Field]) -> Vec<Damage> {
    let record = if rng.one_in(3) { network.layers.len() } else { rng.below(network.tensors()) };
    let first = set_one(rng, fields, record);
    let second = match rng.below(6) {
        0 => cut(rng, network),
        1 => trail(rng),
        2 => {
            let other = rng.below(network.tensors());
            set_one(rng, fields, other)
        }
        _ => set_one(rng, fields, record),
    };
    vec![first, second]
}

/// Any value of any field of this record.
fn set_one(rng: &mut Rng, fields: &[Field], record: usize) -> Damage {
    let of_record: Vec<&Field> = fields.iter().filter(|field| field.record == record).collect();
    let field = rng.pick(&of_record);
    Damage::Set(field.place.clone(), rng.pick(&field.values))
}

/// A cut near the end of a record or of its parts, or anywhere.
pub fn cut(rng: &mut Rng, network: &Network) -> Damage {
    let layer = &network.layers[rng.below(network.layers.len())];
    let end_of_file = network.layers.last().expect("a layer at least").place.end;
    let biases = layer.place.end - layer.weights.len();
    let near = rng.pick(&[layer.place.start, layer.place.end, layer.place.end, biases, end_of_file]);
    let length = if rng.one_in(4) { rng.below(end_of_file) } else { near - rng.below(4).min(near) };
    Damage::Cut(length.min(end_of_file - 1))
}

pub fn trail(rng: &mut Rng) -> Damage {
    let count = rng.pick(&[1, 1, 2, 16, 300]);
    Damage::Trail(rng.bytes(count))
}

/// Any byte changed to any other.
pub fn any_byte(rng: &mut Rng, length: usize) -> Damage {
    // The fixed parts stand at the front in small networks, where a change says most.
    let at = if rng.one_in(2) { rng.below(length) } else { rng.below(length.min(40)) };
    Damage::Set(at..at + 1, rng.byte().into())
}

/// Records that test 9 may refuse in place of `record`, which replaces `layer`: each way, one at a time. Those that
/// are still in range are taken.
pub fn records(record: &[u8], layer: &Layer) -> Vec<Vec<u8>> {
    let mut all = vec![
        Vec::new(),
        record[..1].to_vec(),
        record[..record.len() - 1].to_vec(),
        [record, &[0]].concat(),
        record.repeat(2),
        record[..kept_bytes(&layer.kind)].to_vec(),
    ];
    for at in 0..kept_bytes(&layer.kind) {
        for change in [1, 2, 255] {
            let mut changed = record.to_vec();
            changed[at] = changed[at].wrapping_add(change);
            all.push(changed);
        }
    }
    let alone = Layer { place: 0..record.len(), ..layer.clone() };
    all.extend(single(&layer_fields(1, &alone)).iter().map(|damage| damaged(record, std::slice::from_ref(damage))));
    all
}

/// One of [`records`], sometimes with a second change.
pub fn record(rng: &mut Rng, record: &[u8], layer: &Layer) -> Vec<u8> {
    let mut changed = {
        let all = records(record, layer);
        all[rng.below(all.len())].clone()
    };
    if rng.one_in(4) && !changed.is_empty() {
        any_byte(rng, changed.len()).apply(&mut changed);
    }
    changed
}
