//! Misreadings of request 08 of paper 02, orders by groups: the library has none of them,
//! and each would be seen in the masks of the permutations that are named; grouping by
//! such masks does not permute, but where it is said.

use conformance::call::grouped;
use conformance::controls::stages;
use conformance::permutations::{
    all_of_width_8, identity, index_reversal, product, realised, reversal, rotation, shuffle, swap,
    undoing, FIXED,
};
use model::bits::{marked, unmarked, word_of};
use model::groups::{Masks, WIDTHS};
use tigbayon::route_groups;

/// A reading of the request.
#[derive(Clone, Copy)]
struct Reading {
    /// The place at which this bit must end.
    end: fn(&[u8], usize) -> usize,
    /// How many steps there are for this logarithm of the width.
    steps: fn(usize) -> usize,
    /// Whether step i, at this logarithm of the width, marks what must end at this place.
    marks: fn(usize, usize, usize) -> bool,
    /// For each place, where its content stood before a step by this mask.
    sources: fn(&[bool]) -> Vec<usize>,
}

/// The request's: "Turn an order into L masks: the mask of step i (from 0) marks each line
/// whose present content must end at a place with bit i zero."
const READING: Reading = Reading {
    end: |permutation, bit| undoing(permutation)[bit].into(),
    steps: |logarithm| logarithm,
    marks: |_, i, end| end >> i & 1 == 0,
    sources: |mask| [marked(mask), unmarked(mask)].concat(),
};

impl Reading {
    fn masks(self, permutation: &[u8]) -> Masks {
        let logarithm = stages(permutation.len() as u32);
        let ends = (0..permutation.len()).map(|bit| (self.end)(permutation, bit));
        let mut ends: Vec<usize> = ends.collect();
        let mut masks = Masks::default();
        for (i, mask) in (0..(self.steps)(logarithm)).zip(&mut masks) {
            let marks = ends.iter().map(|&end| (self.marks)(logarithm, i, end));
            let marks: Vec<bool> = marks.collect();
            *mask = word_of(&marks);
            let sources = (self.sources)(&marks).into_iter();
            ends = sources.map(|source| ends[source]).collect();
        }
        masks
    }
}

/// The permutation that grouping by these masks in turn realises.
fn realised_by(width: u32, masks: &[u64]) -> Vec<u8> {
    realised(width, |word| grouped(width, masks, word))
}

/// The masks that the call answers, those of the request's reading, which permute; and
/// those of the other.
fn both_masks(misread: Reading, permutation: &[u8]) -> [Masks; 2] {
    let width = permutation.len() as u32;
    let masks = route_groups(width, permutation).expect("accepted");
    assert_eq!(masks, READING.masks(permutation));
    assert_eq!(realised_by(width, &masks), permutation);
    [masks, misread.masks(permutation)]
}

/// Checks that the other reading is seen, or is not, in the masks of this permutation,
/// and that they do not permute, or do.
fn assert_seen_in(misread: Reading, permutation: &[u8], seen: bool) {
    let [masks, misread] = both_masks(misread, permutation);
    let moved = realised_by(permutation.len() as u32, &misread);
    assert_eq!(misread != masks, seen, "{permutation:?}");
    assert_eq!(moved != permutation, seen, "{permutation:?}");
}

fn swap_of_1_and_4(width: u32) -> Vec<u8> {
    swap(width, 1, 4)
}

fn rotation_by_1(width: u32) -> Vec<u8> {
    rotation(width, 1)
}

/// Every permutation of width 8, and of every width those that it has one of, a swap and
/// a rotation.
fn permutations() -> impl Iterator<Item = Vec<u8>> {
    let named = WIDTHS.into_iter().flat_map(|width| {
        let fixed = FIXED.map(|fixed| fixed(width)).into_iter();
        fixed.chain([swap_of_1_and_4(width), rotation_by_1(width)])
    });
    all_of_width_8().chain(named)
}

/// Checks that the other reading is seen in exactly these.
fn assert_seen(misread: Reading, seen: fn(&[u8]) -> bool) {
    for permutation in permutations() {
        assert_seen_in(misread, &permutation, seen(&permutation));
    }
}

/// "must end": entry p of an order names the bit that ends at place p, and not the place at
/// which bit p ends. That is seen but where a permutation undoes itself; the masks would
/// be those of the one that undoes it.
#[test]
fn a_place_and_the_bit_that_it_takes_are_not_exchanged() {
    let end = |permutation: &[u8], bit: usize| permutation[bit].into();
    let misread = Reading { end, ..READING };
    assert_seen(misread, |permutation| undoing(permutation) != permutation);
    for permutation in permutations() {
        let undoing = READING.masks(&undoing(&permutation));
        assert_eq!(misread.masks(&permutation), undoing);
    }
}

/// "a place with bit i zero": with a one, every bit would come to the place whose number,
/// in base two, has the other digits.
#[test]
fn a_bit_that_is_one_is_not_marked() {
    let marks = |_, i, end: usize| end >> i & 1 == 1;
    let misread = Reading { marks, ..READING };
    assert_seen(misread, |_| true);
    for permutation in permutations() {
        let width = permutation.len() as u32;
        let moved = product(&permutation, &reversal(width));
        assert_eq!(realised_by(width, &misread.masks(&permutation)), moved);
    }
}

/// "the unmarked lines in their order", and the marked ones in theirs: no step turns
/// either of them round.
#[test]
fn a_step_keeps_the_order_of_the_marked_and_of_the_unmarked() {
    let sources = |mask: &[bool]| {
        let reversed = unmarked(mask).into_iter().rev();
        marked(mask).into_iter().chain(reversed).collect()
    };
    assert_seen(Reading { sources, ..READING }, |_| true);
    let sources = |mask: &[bool]| {
        let reversed = marked(mask).into_iter().rev();
        reversed.chain(unmarked(mask)).collect()
    };
    assert_seen(Reading { sources, ..READING }, |_| true);
}

/// "L masks": not one less.
#[test]
fn there_is_no_step_less() {
    let steps = |logarithm| logarithm - 1;
    assert_seen(Reading { steps, ..READING }, |_| true);
}

/// Nor one more. It would mark every bit, since no place has bit L, and change no word;
/// at width 64 there is no room for it.
#[test]
fn there_is_no_step_more() {
    let steps = |logarithm| logarithm + 1;
    for permutation in permutations().filter(|permutation| permutation.len() < 64) {
        let [masks, misread] = both_masks(Reading { steps, ..READING }, &permutation);
        assert_ne!(misread, masks);
        assert_eq!(realised_by(permutation.len() as u32, &misread), permutation);
    }
}

/// "the mask of step i (from 0)" is by bit i: the lowest first, and not the highest.
#[test]
fn bits_of_a_place_are_not_taken_from_the_top_down() {
    let marks = |logarithm: usize, i, end: usize| end >> (logarithm - 1 - i) & 1 == 0;
    assert_seen(Reading { marks, ..READING }, |_| true);
}

/// Steps are counted "from 0": from 1 on, the last would mark every bit, and two bits that
/// end side by side would stay in the order in which they stood.
#[test]
fn steps_are_not_counted_from_1() {
    let marks = |_, i, end: usize| end >> (i + 1) & 1 == 0;
    for permutation in permutations() {
        let [masks, misread] = both_masks(Reading { marks, ..READING }, &permutation);
        assert_ne!(misread, masks);
        let moved = realised_by(permutation.len() as u32, &misread);
        let in_order = permutation.chunks(2).all(|pair| pair[0] < pair[1]);
        assert_eq!(moved == permutation, in_order);
    }
}

/// A permutation that every width has.
type Named = fn(u32) -> Vec<u8>;

/// Checks that the other reading is seen in the first of these, and not in the others.
fn assert_seen_in_named(misread: Reading, seen: &[Named], not_seen: &[Named]) {
    for width in WIDTHS {
        for permutation in seen {
            assert_seen_in(misread, &permutation(width), true);
        }
        for permutation in not_seen {
            assert_seen_in(misread, &permutation(width), false);
        }
    }
}

/// "whose present content": not the one that stood there at first.
#[test]
fn contents_do_not_stay_where_they_stood() {
    let sources = |mask: &[bool]| (0..mask.len()).collect();
    assert_seen_in_named(
        Reading { sources, ..READING },
        &[identity, reversal, shuffle, swap_of_1_and_4, rotation_by_1],
        &[index_reversal],
    );
}

/// Group brings the marked to the right, and not to the left.
#[test]
fn the_marked_are_not_brought_to_the_left() {
    let sources = |mask: &[bool]| [unmarked(mask), marked(mask)].concat();
    assert_seen_in_named(
        Reading { sources, ..READING },
        &[swap_of_1_and_4, rotation_by_1],
        &[identity, reversal, shuffle, index_reversal],
    );
}

/// A step is a group, and not what undoes one.
#[test]
fn contents_are_not_moved_the_other_way() {
    let sources = |mask: &[bool]| {
        let mut places = vec![0; mask.len()];
        for (place, source) in (READING.sources)(mask).into_iter().enumerate() {
            places[source] = place;
        }
        places
    };
    assert_seen_in_named(
        Reading { sources, ..READING },
        &[identity, reversal, shuffle, swap_of_1_and_4, rotation_by_1],
        &[index_reversal],
    );
}

/// "in turn": from the first mask to the last, and not from the last to the first.
#[test]
fn masks_are_not_in_reversed_order() {
    for width in WIDTHS {
        for permutation in [swap_of_1_and_4(width), rotation_by_1(width)] {
            let [masks, mut misread] = both_masks(READING, &permutation);
            misread[..stages(width)].reverse();
            assert_ne!(misread, masks);
            assert_ne!(realised_by(width, &misread), permutation);
        }
    }
}

/// Every step is made, also where nothing has to move: zeros would permute too, but they
/// are no masks of the request.
#[test]
fn masks_of_the_identity_are_not_zero() {
    for width in WIDTHS {
        let [masks, _] = both_masks(READING, &identity(width));
        assert!(masks[..stages(width)].iter().all(|&mask| mask != 0));
        assert_eq!(realised_by(width, &[0; 6]), identity(width));
    }
}
