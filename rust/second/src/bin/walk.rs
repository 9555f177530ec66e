//! What the walk program is to write, from the second implementation: walk NETWORK PICTURE FIRST COUNT ROWS LAYER RECORD.
//! A wrong word or length ends it, and so does any refusal but that of the last reading.

use std::{env, fs};

use second::{Outcome, Sizes, State};

struct Morning {
    file: Vec<u8>,
    sizes: Sizes,
    sums: Vec<u32>,
    area: Vec<u8>,
    state: State,
}

impl Morning {
    /// The network is loaded, with the picture in the area.
    fn begin(file: Vec<u8>, picture: &[u8]) -> Morning {
        let sizes = second::sizes(&file);
        assert_eq!(sizes.number, 0, "the network is refused");
        let mut area = vec![0; sizes.area];
        area[..sizes.picture].copy_from_slice(picture);
        let mut sums = vec![0; sizes.sums];
        let loaded = second::load(&file, &mut sums, &area);
        let mut morning = Morning { file, sizes, sums, area, state: loaded.state };
        morning.answered("load", loaded, "");
        morning
    }

    fn change_rows(&mut self, first: usize, count: usize, rows: &[u8]) {
        let outcome = second::change_rows(&self.file, &self.sums, &mut self.area, self.state, first, count, rows);
        self.answered("change rows", outcome, "");
    }

    fn replace_layer(&mut self, layer: usize, record: &[u8]) {
        let outcome = second::replace_layer(&mut self.file, &mut self.sums, &self.area, self.state, layer, record);
        self.answered("replace layer", outcome, "");
    }

    /// An update, how much it recomputed of what the layers make, and a reading.
    fn update_and_read(&mut self) {
        let outcome = second::update(&self.file, &self.sums, &mut self.area, self.state);
        let all = self.sizes.area - self.sizes.picture;
        self.answered("update", outcome, &format!(", count {} of {all} bytes", outcome.count));
        self.read();
    }

    /// A reading is one line, however many rows the tensor has.
    fn read(&mut self) {
        let mut reading = vec![0; self.sizes.reading];
        let outcome = second::read(&self.file, &self.sums, &self.area, self.state, &mut reading);
        println!("reading: number {}", outcome.number);
        if outcome.number == 0 {
            println!("{}", reading.iter().map(|byte| format!(" {byte}")).collect::<String>());
        }
    }

    fn answered(&mut self, call: &str, outcome: Outcome, more: &str) {
        assert_eq!(outcome.number, 0, "{call} is refused");
        println!("{call}: number 0{more}");
        self.state = outcome.state;
    }
}

fn main() {
    let words: Vec<String> = env::args().collect();
    assert_eq!(words.len(), 8, "walk NETWORK PICTURE FIRST COUNT ROWS LAYER RECORD");
    let bytes = |i: usize| fs::read(&words[i]).expect("a file that can be read");
    let number = |i: usize| words[i].parse::<usize>().expect("a number");
    let (first, count, rows) = (number(3), number(4), bytes(5));
    let (layer, record) = (number(6), bytes(7));
    let mut morning = Morning::begin(bytes(1), &bytes(2));
    morning.update_and_read();
    morning.change_rows(first, count, &rows);
    morning.update_and_read();
    morning.replace_layer(layer, &record);
    morning.update_and_read();
    morning.change_rows(first, count, &rows);
    morning.read();
}
