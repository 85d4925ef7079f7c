//! What the demands, paper 01 and request 01 of paper 02 say of every mask and
//! word, asked of the library.

use conformance::samples::for_each;
use conformance::{low_ones, WIDTHS};
use tigbayon::{butterfly, decode, gather, group, inverse, scatter, Refusal};

type Outcome = Result<(), Refusal>;

/// Checks a law on every mask and word of width 8 and on samples of the
/// other widths.
fn holds(law: impl Fn(u32, u64, u64) -> Outcome) {
    for mask in 0..=0xFF {
        for word in 0..=0xFF {
            law(8, mask, word).expect("not refused");
        }
    }
    for width in WIDTHS {
        for_each(width, 200, |mask, word| {
            law(width, mask, word).expect("not refused")
        });
    }
}

#[test]
fn scatter_after_gather_zeroes_the_unmarked_bits() {
    holds(|w, mask, word| {
        let gathered = gather(w, mask, word)?.word;
        assert_eq!(scatter(w, mask, gathered)?.word, word & mask);
        Ok(())
    });
}

#[test]
fn gather_after_scatter_keeps_the_rightmost_bits_as_many_as_are_marked() {
    holds(|w, mask, word| {
        let kept = word & low_ones(mask.count_ones());
        let scattered = scatter(w, mask, word)?.word;
        assert_eq!(gather(w, mask, scattered)?.word, kept);
        Ok(())
    });
}

#[test]
fn group_by_no_bits_or_by_all_gives_the_word_back() {
    holds(|w, _, word| {
        assert_eq!(group(w, 0, word)?.word, word);
        assert_eq!(group(w, low_ones(w), word)?.word, word);
        Ok(())
    });
}

/// 001, Section 2.3: grp is "two parallel operations: grp_right (grpr) and
/// grp_left (grpl)", and pex "is the grp_right half".
#[test]
fn group_is_gather_of_the_marked_beside_gather_of_the_unmarked() {
    holds(|w, mask, word| {
        let right = gather(w, mask, word)?.word;
        let left = gather(w, !mask & low_ones(w), word)?.word;
        let left = left.checked_shl(mask.count_ones()).unwrap_or(0);
        assert_eq!(group(w, mask, word)?.word, left | right);
        Ok(())
    });
}

/// "Gather, scatter and group now answer the count of marked lines beside the
/// word": of the mask, whatever the call and the word.
#[test]
fn each_call_answers_the_count_of_the_masks_ones() {
    holds(|w, mask, word| {
        for call in [gather, scatter, group] {
            assert_eq!(call(w, mask, word)?.count, mask.count_ones());
        }
        Ok(())
    });
}

/// "0 to w": both ends, at every width.
#[test]
fn no_marked_bits_count_0_and_all_count_the_width() {
    holds(|w, _, word| {
        for call in [gather, scatter, group] {
            assert_eq!(call(w, 0, word)?.count, 0);
            assert_eq!(call(w, low_ones(w), word)?.count, w);
        }
        Ok(())
    });
}

/// Below 2^count, and no less than that where every marked bit is a one.
#[test]
fn gathered_words_have_as_many_bits_as_are_counted() {
    holds(|w, mask, word| {
        let gathered = gather(w, mask, word)?;
        let ones = low_ones(gathered.count);
        assert_eq!(gathered.word & !ones, 0);
        assert_eq!(gather(w, mask, word | mask)?.word, ones);
        Ok(())
    });
}

#[test]
fn gather_and_scatter_do_not_look_at_bits_they_do_not_move() {
    holds(|w, mask, word| {
        let moved = word & low_ones(mask.count_ones());
        assert_eq!(gather(w, mask, word & mask)?, gather(w, mask, word)?);
        assert_eq!(scatter(w, mask, moved)?, scatter(w, mask, word)?);
        Ok(())
    });
}

#[test]
fn butterfly_on_decoded_controls_then_the_mask_scatters() {
    holds(|w, mask, word| {
        let controls = decode(w, mask)?.butterfly;
        let carried = butterfly(w, &controls, word)?;
        assert_eq!(carried & mask, scatter(w, mask, word)?.word);
        Ok(())
    });
}

#[test]
fn the_mask_then_inverse_on_decoded_controls_gathers() {
    holds(|w, mask, word| {
        let controls = decode(w, mask)?.inverse;
        let carried = inverse(w, &controls, word & mask)?;
        assert_eq!(carried, gather(w, mask, word)?.word);
        Ok(())
    });
}
