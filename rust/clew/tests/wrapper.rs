//! The wrapper over the archive or, without the feature `archive`, over a stand-in made of the second implementation.

#[cfg(not(feature = "archive"))]
mod stand_in;

use clew::{raw, Joiner, Refusal, Sizes};

/// Document 01's network K.
const K: [u8; 39] = [
    0x4E, 0x48, 0x03, 0x00, 0x01, 0x00, 0x01, 0x0A, 0x01, 0x00, // head
    0x43, 0x56, 0x01, 0x03, 0x03, 0x01, 0x01, 0x00, 0x00, 0x00, 0xFF, 0x00, 0x00, 0x00, 0x00, 0x40, // convolution
    0x00, 0x00, 0x00, 0x00, // bias
    0x01, 0x01, 0x01, 0x01, 0x01, 0x01, 0x01, 0x01, 0x01, // weights
];

/// A picture of 2 × 3 × 5 and two adds, each of the tensor before with itself: no sums.
fn adds_alone() -> Vec<u8> {
    let head = [0x4E, 0x48, 0x02, 0x00, 0x03, 0x00, 0x05, 0x00, 0x02, 0x00];
    let add = |j: u8| [&[0x41, 0x44, j, 0, 0, 255][..], &[0, 0, 0, 0x40].repeat(3), &[0, 0, 18, 0]].concat();
    [&head[..], &add(0), &add(1)].concat()
}

fn loaded() -> Joiner {
    let mut joiner = Joiner::load(K.to_vec()).expect("K is taken");
    joiner.picture_mut().expect("all stale").copy_from_slice(&[20, 30, 40]);
    joiner
}

fn number<T: std::fmt::Debug>(result: Result<T, Refusal>) -> u8 {
    result.expect_err("a refusal").number()
}

#[test]
fn a_joiner_through_p2_and_p3() {
    let mut joiner = loaded();
    assert_eq!(joiner.update(), Ok(3));
    let mut out = [0; 3];
    assert_eq!(joiner.read(&mut out), Ok(()));
    assert_eq!(out, [15, 30, 25]);
    assert_eq!(joiner.change_rows(0, 1, &[22]), Ok(()));
    assert_eq!(joiner.update(), Ok(2));
    assert_eq!(joiner.read(&mut out), Ok(()));
    assert_eq!(out, [16, 31, 25]);
}

#[test]
fn a_replaced_layer_is_in_the_network() {
    let mut joiner = loaded();
    let mut record = K[10..].to_vec();
    record[28] = 5; // the last weight
    assert_eq!(joiner.replace_layer(1, &record), Ok(()));
    assert_eq!(joiner.network()[10..], record);
}

#[test]
fn the_picture_is_lent_after_a_load_and_before_the_first_update() {
    let mut joiner = loaded();
    assert_eq!(joiner.change_rows(1, 1, &[31]), Ok(()));
    assert_eq!(joiner.replace_layer(1, &K[10..]), Ok(()));
    assert_eq!(number(joiner.reading()), 8);
    assert_eq!(joiner.picture_mut(), Some(&mut [20, 31, 40][..]), "no update yet");
    assert_eq!(joiner.update(), Ok(3));
    assert_eq!(joiner.picture_mut(), None);
    assert_eq!(joiner.change_rows(0, 2, &[1, 2]), Ok(()));
    assert_eq!(joiner.picture_mut(), None);
    assert_eq!(joiner.change_rows(2, 1, &[3]), Ok(()));
    assert_eq!(joiner.picture_mut(), None, "the picture is stale, but not its reader");
    assert_eq!(joiner.replace_layer(1, &K[10..]), Ok(()));
    assert_eq!(joiner.picture_mut(), Some(&mut [1, 2, 3][..]), "everything is stale again");
}

#[test]
fn a_picture_written_after_the_load_is_the_one_that_is_worked() {
    let mut joiner = loaded();
    joiner.picture_mut().expect("everything is stale").copy_from_slice(&[22, 30, 40]);
    assert_eq!(joiner.update(), Ok(3));
    assert_eq!(joiner.reading(), Ok(vec![16, 31, 25]));
}

#[test]
fn lengths_and_readings_of_a_joiner() {
    let mut joiner = loaded();
    assert_eq!((joiner.picture_len(), joiner.reading_len()), (3, 3));
    assert_eq!(number(joiner.reading()), 8);
    assert_eq!(joiner.update(), Ok(3));
    assert_eq!(joiner.reading(), Ok(vec![15, 30, 25]));
    let mut out = [0; 3];
    assert_eq!(joiner.read(&mut out), Ok(()));
    assert_eq!(joiner.reading(), Ok(out.to_vec()));
}

#[test]
fn sizes_of_networks() {
    assert_eq!(Sizes::of(&K), Ok(Sizes { picture: 3, sums: 1, area: 6, reading: 3 }));
    assert_eq!(Sizes::of(&adds_alone()), Ok(Sizes { picture: 30, sums: 0, area: 90, reading: 30 }));
    assert_eq!(raw::sizes(&K), (0, [3, 1, 6, 3]));
}

#[test]
fn sizes_of_a_refused_file_are_0() {
    assert_eq!(raw::sizes(&[]), (1, [0; 4]));
    assert_eq!(raw::sizes(&K[..38]), (1, [0; 4]));
    let mut bad_bias = K;
    bad_bias[29] = 0x7F;
    assert_eq!(raw::sizes(&bad_bias), (2, [0; 4]));
    let mut big_picture = K;
    big_picture[2..6].copy_from_slice(&[0, 1, 0, 1]);
    assert_eq!(raw::sizes(&big_picture), (3, [0; 4]));
    assert_eq!(raw::sizes(&[0; 65_537]), (3, [0; 4]));
    assert_eq!(number(Sizes::of(&big_picture)), 3);
}

#[test]
fn a_joiner_of_adds_alone_has_no_sums() {
    let mut joiner = Joiner::load(adds_alone()).expect("adds need no sums");
    let picture: Vec<u8> = (0..30).collect();
    joiner.picture_mut().expect("everything is stale").copy_from_slice(&picture);
    assert_eq!(joiner.update(), Ok(60));
    // With multipliers 2^30 and shifts 0, 0, 18 an add gives the sum of the offsets: twice, then four times the byte.
    let fourfold: Vec<u8> = (0..30).map(|byte| 4 * byte).collect();
    assert_eq!(joiner.reading(), Ok(fourfold));
}

#[test]
fn refusals_of_a_joiner() {
    assert_eq!(number(Joiner::load(K[..38].to_vec())), 1);
    assert_eq!(number(Joiner::load(vec![0; 65_537])), 3);
    let mut joiner = loaded();
    assert_eq!(number(joiner.read(&mut [0; 3])), 8);
    assert_eq!(number(joiner.read(&mut [0; 2])), 7);
    assert_eq!(number(joiner.change_rows(usize::MAX, 2, &[1, 2])), 7);
    assert_eq!(number(joiner.replace_layer(2, &K[10..])), 7);
    assert_eq!(number(joiner.replace_layer(1, &[])), 9);
}

#[test]
fn a_refused_load_writes_the_all_stale_state() {
    let mut state = [7; 34];
    assert_eq!(raw::load(&K, &mut [], &[0; 6], &mut state), 4);
    assert_eq!(state[..4], [1, 0, 1, 0]);
    assert_eq!(raw::update(&K, &[9], &mut [0; 6], &mut state), (5, 0));
}

#[test]
fn the_raw_calls() {
    let mut network = K;
    let mut sums = [0, 77];
    let mut area = [20, 30, 40, 0, 0, 0, 99];
    let mut state = [7; 34];
    assert_eq!(raw::load(&network, &mut sums, &area, &mut state), 0);
    assert_eq!(sums, [9, 77]);
    assert_eq!(state[..6], [0, 3, 0, 3, 0, 0]);
    assert_eq!(raw::update(&network, &sums, &mut area, &mut state), (0, 3));
    assert_eq!(area, [20, 30, 40, 15, 30, 25, 99]);
    assert_eq!(raw::change_rows(&network, &sums, &mut area, &mut state, 2, 1, &[41]), 0);
    assert_eq!(state[..4], [2, 3, 0, 0]);
    assert_eq!(raw::replace_layer(&mut network, &mut sums, &area, &mut state, 1, &K[10..]), 0);
    assert_eq!(state[..4], [2, 3, 0, 3]);
    assert_eq!(raw::read(&network, &sums, &area, &state, &mut [0; 3]), 8);
}

#[test]
fn a_refusal_has_the_documents_words() {
    let refusal = Refusal::check(6).expect_err("a refusal");
    assert_eq!(refusal.to_string(), "refused 6: a stored sum above 255N");
    assert_eq!(Refusal::check(0), Ok(()));
    for number in 1..=9 {
        let words = Refusal::check(number).expect_err("a refusal").words();
        assert!(!words.contains("does not have"), "{number} has words of its own");
    }
}
