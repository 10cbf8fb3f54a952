//! The files of tests/vectors, whole, on each side.

use compare::side::{Ordinary, Proved, Side};
use compare::vectors::{file, replay_01, replay_02, Replayed};

/// Document 01's stores have no number: they are replayed under several. Of its 1510 calls the 168 formats are made
/// twice, and not overwriting meets 12 sound stores with pairs, two good fills each.
fn stores_01<S: Side>() {
    let text = file("stores.txt");
    for number in [0, 1, u32::MAX, 0x8000_0000, 0x1D2C_3B4A] {
        let wanted = Replayed { calls: 1510 + 168, in_use: 24, ..Replayed::default() };
        assert_eq!(replay_01::<S>(&text, number), wanted, "number {number}");
    }
}

fn stores_02<S: Side>() {
    let calls = Replayed { calls: 6_986, in_use: 37, pending: 492, gauges: 130, shown: 37, ..Replayed::default() };
    let squeezes = Replayed { squeezes: 1_512, busy: 64, moved: 12, ..calls };
    let wanted = Replayed { recoveries: 130, mended: 4, looks: 1_024, in_journal: 4, ..squeezes };
    assert_eq!(replay_02::<S>(&file("02/stores.txt")), wanted);
}

#[test]
fn stores_of_document_01_on_the_proved_side() {
    stores_01::<Proved>();
}

#[test]
fn stores_of_document_01_on_the_ordinary_side() {
    stores_01::<Ordinary>();
}

#[test]
fn stores_of_document_02_on_the_proved_side() {
    stores_02::<Proved>();
}

#[test]
fn stores_of_document_02_on_the_ordinary_side() {
    stores_02::<Ordinary>();
}
