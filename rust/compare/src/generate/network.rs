//! Random networks that are taken.

use second::Shape;

use super::numbers::{self, Flavour};
use super::records::{self, ConvShape};
use crate::rng::Rng;

/// From, to, both included.
type Span = (usize, usize);

/// Between what limits a network is drawn.
#[derive(Clone, Copy, Debug)]
pub struct Style {
    pub rows: Span,
    pub columns: Span,
    pub channels: Span,
    pub layers: Span,
    /// The most outputs of a full layer, and filters of a convolution.
    pub outputs: usize,
    /// The most bytes of one tensor.
    pub tensor_bytes: usize,
    /// The most terms of one whole run: what keeps the comparison quick.
    pub work: usize,
    /// Of twelve layers, how many are full.
    pub fulls: usize,
    /// Convolutions grow the picture where they can.
    pub growing: bool,
}

/// Most networks: a few layers of every kind.
pub const SMALL: Style = Style {
    rows: (1, 8),
    columns: (1, 7),
    channels: (1, 4),
    layers: (1, 6),
    outputs: 8,
    tensor_bytes: 400,
    work: 15_000,
    fulls: 1,
    growing: false,
};

/// Up to all sixteen layers.
pub const DEEP: Style =
    Style { rows: (2, 7), columns: (1, 4), channels: (1, 3), layers: (9, 16), work: 25_000, ..SMALL };

/// Tensors with more rows than a byte counts.
pub const TALL: Style = Style {
    rows: (252, 256),
    columns: (1, 2),
    channels: (1, 1),
    layers: (1, 3),
    outputs: 2,
    tensor_bytes: 6_000,
    work: 120_000,
    fulls: 1,
    growing: true,
};

/// Many channels: full layers up to 256 outputs, and convolutions over them.
pub const CHANNELS: Style = Style {
    rows: (1, 3),
    columns: (1, 3),
    channels: (1, 64),
    layers: (2, 5),
    outputs: 256,
    tensor_bytes: 2_000,
    work: 150_000,
    fulls: 4,
    growing: false,
};

/// Near the limits on tensors, area and file.
pub const LARGE: Style = Style {
    rows: (16, 256),
    columns: (16, 256),
    channels: (1, 16),
    layers: (1, 8),
    outputs: 64,
    tensor_bytes: 16_384,
    work: 2_000_000,
    fulls: 1,
    growing: false,
};

const LARGEST_AREA: usize = 65_536;
const LONGEST_FILE: usize = 65_536;
const TRIES: usize = 24;

/// A network file of this style, one that load takes.
pub fn draw(rng: &mut Rng, style: Style) -> Vec<u8> {
    let picture = draw_picture(rng, style);
    let mut draft = Draft { style, shapes: vec![picture], records: Vec::new(), work: 0 };
    let layers = rng.within(style.layers.0, style.layers.1);
    match rng.below(3) {
        0 if layers >= 3 => draft.push_skip_and_return(rng),
        1 if style.outputs > 64 => draft.push_many_channels(rng),
        _ => {}
    }
    while draft.records.len() < layers && draft.push_layer(rng) {}
    if draft.records.is_empty() {
        // One output over the whole picture always fits, but for the work.
        let record = records::full(rng, Flavour::Plain, 1, picture.bytes());
        draft.push(record, Shape { rows: 1, columns: 1, channels: 1 }, 0);
    }
    let flavour = numbers::flavour(rng);
    let file = draft.file(numbers::zero_point(rng, flavour));
    assert!(second::decode(&file).is_ok(), "a drawn network is taken");
    file
}

fn draw_picture(rng: &mut Rng, style: Style) -> Shape {
    loop {
        let shape = Shape {
            rows: rng.within(style.rows.0, style.rows.1),
            columns: rng.within(style.columns.0, style.columns.1),
            channels: rng.within(style.channels.0, style.channels.1),
        };
        if shape.bytes() <= style.tensor_bytes {
            return shape;
        }
    }
}

/// A network under way.
struct Draft {
    style: Style,
    shapes: Vec<Shape>,
    records: Vec<Vec<u8>>,
    work: usize,
}

impl Draft {
    fn input(&self) -> Shape {
        *self.shapes.last().expect("the picture at least")
    }

    fn push(&mut self, record: Vec<u8>, output: Shape, work: usize) {
        self.records.push(record);
        self.shapes.push(output);
        self.work += work;
    }

    /// Draws a layer that fits; false if none is found.
    fn push_layer(&mut self, rng: &mut Rng) -> bool {
        (0..TRIES).any(|_| match rng.below(12) {
            draw if draw < self.style.fulls => self.push_full(rng),
            8..=11 => self.push_add(rng),
            _ => self.push_conv(rng),
        })
    }

    /// A convolution that skips rows, one that grows them back, and an add with the tensor before both: rows that were
    /// skipped reach only the add, and only through its tensor j.
    fn push_skip_and_return(&mut self, rng: &mut Rng) {
        let (j, aim) = (self.shapes.len() - 1, self.input());
        let skip = ConvShape { stride: rng.within(2, 4), ..ConvShape::dot(rng.within(1, 3)) };
        if !self.push_conv_of(rng, skip) {
            return;
        }
        let input = self.input();
        let lost = (aim.rows - input.rows, aim.columns - input.columns);
        let padding = lost.0.max(lost.1);
        let kernel = (2 * padding + 1 - lost.0, 2 * padding + 1 - lost.1);
        if kernel.0.max(kernel.1) > 7 || aim.channels > 64 {
            return;
        }
        let back =
            ConvShape { filters: aim.channels, kernel_rows: kernel.0, kernel_columns: kernel.1, stride: 1, padding };
        if self.push_conv_of(rng, back) && self.fits(aim, 22, aim.bytes()) {
            self.push(records::add(rng, Flavour::Plain, j), aim, aim.bytes());
        }
    }

    /// A full layer with more outputs than a convolution may have filters, and a convolution over them.
    fn push_many_channels(&mut self, rng: &mut Rng) {
        let outputs = rng.within(65, self.style.outputs);
        if self.push_full_of(rng, outputs) {
            let shape = ConvShape::growing(rng.within(1, 4), rng.pick(&[1, 1, 2, 3]));
            self.push_conv_of(rng, shape);
        }
    }

    fn push_conv(&mut self, rng: &mut Rng) -> bool {
        let shape = if rng.one_in(2) { self.aimed_conv(rng) } else { Some(self.any_conv(rng)) };
        shape.is_some_and(|shape| self.push_conv_of(rng, shape))
    }

    fn push_conv_of(&mut self, rng: &mut Rng, shape: ConvShape) -> bool {
        let input = self.input();
        let Some(output) = conv_output(input, shape) else { return false };
        let terms = shape.kernel_rows * shape.kernel_columns * input.channels;
        let length = 16 + shape.filters * (4 + terms);
        let work = output.bytes() * terms;
        if !self.fits(output, length, work) {
            return false;
        }
        let flavour = numbers::flavour(rng);
        self.push(records::conv(rng, flavour, shape, input.channels), output, work);
        true
    }

    fn any_conv(&self, rng: &mut Rng) -> ConvShape {
        let least = if self.style.growing { 2 } else { 1 };
        let kernel_rows = rng.pick(&[1, 1, 2, 2, 3, 3, 3, 4, 5, 6, 7]).max(least);
        let kernel_columns = if rng.one_in(2) { kernel_rows } else { rng.within(least, 7) };
        let most_padding = kernel_rows.min(kernel_columns) - 1;
        let padding = if self.style.growing || rng.one_in(3) { most_padding } else { rng.within(0, most_padding) };
        let stride = if self.style.growing { 1 } else { rng.pick(&[1, 1, 1, 2, 2, 3, 4]) };
        let filters = rng.within(1, self.style.outputs.min(64));
        let filters = if rng.one_in(3) { filters } else { filters.min(rng.within(1, 6)) };
        ConvShape { filters, kernel_rows, kernel_columns, stride, padding }
    }

    /// A convolution whose output has the shape of a tensor that is there, for an add to read both.
    fn aimed_conv(&self, rng: &mut Rng) -> Option<ConvShape> {
        let aim = rng.pick(&self.shapes);
        if aim.channels > 64 {
            return None;
        }
        let shapes = (0..TRIES).map(|_| ConvShape { filters: aim.channels, ..self.any_conv(rng) });
        let mut hits = shapes.filter(|&shape| conv_output(self.input(), shape) == Some(aim));
        hits.next()
    }

    fn push_full(&mut self, rng: &mut Rng) -> bool {
        let few = rng.within(1, self.style.outputs.min(12));
        let many = rng.within(1, self.style.outputs);
        let outputs = rng.pick(&[few, many, self.style.outputs]);
        self.push_full_of(rng, outputs)
    }

    fn push_full_of(&mut self, rng: &mut Rng, outputs: usize) -> bool {
        let terms = self.input().bytes();
        let output = Shape { rows: 1, columns: 1, channels: outputs };
        let work = outputs * terms;
        if !self.fits(output, 14 + outputs * (4 + terms), work) {
            return false;
        }
        let flavour = numbers::flavour(rng);
        self.push(records::full(rng, flavour, outputs, terms), output, work);
        true
    }

    /// An add of a tensor of the same shape, of an earlier one where there is one.
    fn push_add(&mut self, rng: &mut Rng) -> bool {
        let input = self.input();
        let last = self.shapes.len() - 1;
        let earlier: Vec<usize> = (0..last).filter(|&j| self.shapes[j] == input).collect();
        if !self.fits(input, 22, input.bytes()) || (earlier.is_empty() && !rng.one_in(4)) {
            return false;
        }
        let j = if earlier.is_empty() || rng.one_in(5) { last } else { rng.pick(&earlier) };
        let flavour = numbers::flavour(rng);
        self.push(records::add(rng, flavour, j), input, input.bytes());
        true
    }

    fn fits(&self, output: Shape, record_bytes: usize, work: usize) -> bool {
        let area: usize = self.shapes.iter().map(|shape| shape.bytes()).sum();
        let file = 10 + self.records.iter().map(Vec::len).sum::<usize>();
        output.bytes() <= self.style.tensor_bytes
            && area + output.bytes() <= LARGEST_AREA
            && file + record_bytes <= LONGEST_FILE
            && self.work + work <= self.style.work
    }

    fn file(&self, zero_point: u8) -> Vec<u8> {
        let picture = self.shapes[0];
        let head = records::head(picture.rows, picture.columns, picture.channels, zero_point, self.records.len());
        [head, self.records.concat()].concat()
    }
}

fn conv_output(input: Shape, shape: ConvShape) -> Option<Shape> {
    let side = |length: usize, kernel: usize| {
        let room = (length + 2 * shape.padding).checked_sub(kernel)?;
        Some(room / shape.stride + 1)
    };
    Some(Shape {
        rows: side(input.rows, shape.kernel_rows)?,
        columns: side(input.columns, shape.kernel_columns)?,
        channels: shape.filters,
    })
}
