//! What a network file says, once it is taken.

use std::ops::Range;

/// Rows, columns and channels of a tensor. It is stored by row, column, channel.
#[derive(Clone, Copy, Debug, PartialEq, Eq)]
pub struct Shape {
    pub rows: usize,
    pub columns: usize,
    pub channels: usize,
}

impl Shape {
    pub fn row_bytes(self) -> usize {
        self.columns * self.channels
    }

    pub fn bytes(self) -> usize {
        self.rows * self.row_bytes()
    }

    /// Where a byte stands in the tensor.
    pub fn index(self, row: usize, column: usize, channel: usize) -> usize {
        (row * self.columns + column) * self.channels + channel
    }
}

/// A multiplier and its shift.
#[derive(Clone, Copy, Debug, PartialEq, Eq)]
pub struct Scaling {
    pub multiplier: u32,
    pub shift: u8,
}

/// How a rescaled number becomes a byte: zero-point added, held between low and high.
#[derive(Clone, Copy, Debug, PartialEq, Eq)]
pub struct Finish {
    pub zero_point: u8,
    pub low: u8,
    pub high: u8,
}

#[derive(Clone, Copy, Debug, PartialEq, Eq)]
pub struct Conv {
    pub filters: usize,
    pub kernel_rows: usize,
    pub kernel_columns: usize,
    pub stride: usize,
    pub padding: usize,
    pub weight_zero_point: u8,
    pub scaling: Scaling,
    pub finish: Finish,
}

#[derive(Clone, Copy, Debug, PartialEq, Eq)]
pub struct Full {
    pub outputs: usize,
    pub weight_zero_point: u8,
    pub scaling: Scaling,
    pub finish: Finish,
}

/// `first` rescales tensor k − 1, `second` tensor `other`, `third` their sum.
#[derive(Clone, Copy, Debug, PartialEq, Eq)]
pub struct Add {
    pub other: usize,
    pub first: Scaling,
    pub second: Scaling,
    pub third: Scaling,
    pub finish: Finish,
}

#[derive(Clone, Copy, Debug, PartialEq, Eq)]
pub enum Kind {
    Conv(Conv),
    Full(Full),
    Add(Add),
}

impl Kind {
    pub fn finish(&self) -> Finish {
        match self {
            Kind::Conv(conv) => conv.finish,
            Kind::Full(full) => full.finish,
            Kind::Add(add) => add.finish,
        }
    }

    /// How many filters or outputs the layer has, each with a bias and a stored sum; an add has none.
    pub fn outputs(&self) -> usize {
        match self {
            Kind::Conv(conv) => conv.filters,
            Kind::Full(full) => full.outputs,
            Kind::Add(_) => 0,
        }
    }

    /// The number N of terms of one output over an input of this shape; an add has none.
    pub fn terms(&self, input: Shape) -> usize {
        match self {
            Kind::Conv(conv) => conv.kernel_rows * conv.kernel_columns * input.channels,
            Kind::Full(_) => input.bytes(),
            Kind::Add(_) => 0,
        }
    }
}

#[derive(Clone, Debug, PartialEq, Eq)]
pub struct Layer {
    pub input: Shape,
    pub output: Shape,
    pub kind: Kind,
    /// One for each filter or output.
    pub biases: Vec<i32>,
    /// `terms` of them for each filter or output.
    pub weights: Vec<u8>,
    /// Where the record stands in the file.
    pub place: Range<usize>,
}

impl Layer {
    pub fn terms(&self) -> usize {
        self.kind.terms(self.input)
    }

    /// The weights of one filter or output.
    pub fn weights_of(&self, output: usize) -> &[u8] {
        &self.weights[output * self.terms()..][..self.terms()]
    }

    /// The true sums: for each filter or output, the sum of its weight bytes.
    pub fn true_sums(&self) -> Vec<u32> {
        let sum = |output| self.weights_of(output).iter().map(|&w| u32::from(w)).sum();
        (0..self.kind.outputs()).map(sum).collect()
    }
}

#[derive(Clone, Debug, PartialEq, Eq)]
pub struct Network {
    pub picture: Shape,
    pub picture_zero_point: u8,
    pub layers: Vec<Layer>,
}

impl Network {
    /// Tensors are numbered from 0, the picture.
    pub fn tensors(&self) -> usize {
        self.layers.len() + 1
    }

    /// Layers are numbered from 1.
    pub fn layer(&self, k: usize) -> &Layer {
        &self.layers[k - 1]
    }

    pub fn shape(&self, tensor: usize) -> Shape {
        match tensor {
            0 => self.picture,
            k => self.layer(k).output,
        }
    }

    /// A tensor's own zero-point: the head's, or that of the layer which makes it.
    pub fn zero_point(&self, tensor: usize) -> u8 {
        match tensor {
            0 => self.picture_zero_point,
            k => self.layer(k).kind.finish().zero_point,
        }
    }

    /// Where a tensor stands in the work area.
    pub fn area_place(&self, tensor: usize) -> Range<usize> {
        let first = (0..tensor).map(|t| self.shape(t).bytes()).sum();
        first..first + self.shape(tensor).bytes()
    }

    /// The bytes of all tensors together.
    pub fn area_bytes(&self) -> usize {
        (0..self.tensors()).map(|t| self.shape(t).bytes()).sum()
    }

    /// Where the sums of layer k stand in the sum store.
    pub fn sums_place(&self, k: usize) -> Range<usize> {
        let first = (1..k).map(|l| self.layer(l).kind.outputs()).sum();
        first..first + self.layer(k).kind.outputs()
    }

    pub fn sums_needed(&self) -> usize {
        self.layers.iter().map(|layer| layer.kind.outputs()).sum()
    }

    pub fn true_sums(&self) -> Vec<u32> {
        self.layers.iter().flat_map(Layer::true_sums).collect()
    }

    /// The tensors as they lie in a work area that is long enough.
    pub fn split<'a>(&self, area: &'a [u8]) -> Vec<&'a [u8]> {
        (0..self.tensors()).map(|t| &area[self.area_place(t)]).collect()
    }
}
