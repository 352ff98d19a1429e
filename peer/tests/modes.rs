//! The two modes answer alike, in each category and whatever pieces the input comes in.

mod common;

use common::{residue, streamed};
use peer::category::Category;
use peer::lists::list;
use peer::program::transcript;

fn assert_alike(category: Category, seed: u64, number: u64, piece: usize) {
    let input = list(category, seed, number);
    let alike = streamed(category, &input, piece) == transcript(category, &input);
    assert!(alike, "{category:?}, list {number} of seed {seed} in pieces of {piece}");
}

#[test]
fn in_pieces_of_many_sizes() {
    let sizes = [1, 2, 23, 24, 25, 26, 49, 50, 67, 68, 69, 70, 137, 138, 139, 1000, 4096];
    for category in [Category::Food, residue(4)] {
        for (number, piece) in (0..).zip(sizes) {
            assert_alike(category, 2, number, piece);
        }
    }
}

/// Both values, and the compounds at which they change and end.
#[test]
fn residue_lists() {
    for compound in [0, 4, 16, 17, 19] {
        for number in 0..40 {
            assert_alike(residue(compound), 3, number, 4096);
        }
    }
}

/// More of the lists about misidentifications, which end in 3, 4 and 7.
#[test]
fn window_lists() {
    for number in (0..500).filter(|number| [3, 4, 7].contains(&(number % 10))) {
        assert_alike(residue(4), 3, number, 4096);
    }
}
