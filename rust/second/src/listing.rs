//! What the listing program writes for a network file.

use crate::decode::decode;
use crate::network::{Kind, Network};

/// A table with a line for each tensor, or one line with the refusal's number. Every line ends with a newline.
pub fn listing(file: &[u8]) -> String {
    match decode(file) {
        Ok(network) => table(&network),
        Err(number) => format!("refused {number}\n"),
    }
}

fn table(network: &Network) -> String {
    let mut text = String::from("tensor kind rows columns channels bytes sums\n");
    for tensor in 0..network.tensors() {
        let shape = network.shape(tensor);
        let (kind, sums) = maker(network, tensor);
        text +=
            &format!("{tensor} {kind} {} {} {} {} {sums}\n", shape.rows, shape.columns, shape.channels, shape.bytes());
    }
    text
}

/// What makes the tensor, and how many stored sums that has.
fn maker(network: &Network, tensor: usize) -> (&'static str, usize) {
    if tensor == 0 {
        return ("picture", 0);
    }
    let kind = &network.layer(tensor).kind;
    let word = match kind {
        Kind::Conv(_) => "conv",
        Kind::Full(_) => "full",
        Kind::Add(_) => "add",
    };
    (word, kind.outputs())
}
