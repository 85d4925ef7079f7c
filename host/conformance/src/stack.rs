//! How much stack a call uses: what lies below it is painted before the call,
//! and looked through after it.

use std::hint::black_box;
use std::ptr::with_exposed_provenance;

/// How many words are painted: 64 KiB.
const PAINTED: usize = 8_192;

const PAINT: u64 = 0xC35A_96F0_0F69_A53C;

/// The bytes from the frame that makes this call down to the deepest word that
/// the call changed.
pub fn bytes_used(call: &mut dyn FnMut()) -> usize {
    let (top, lowest) = painted_and_called(call);
    top - lowest_changed(lowest)
}

/// Makes the call above fresh paint. Answers the address where its own frame
/// ends, about, and that of the lowest word painted.
#[inline(never)]
fn painted_and_called(call: &mut dyn FnMut()) -> (usize, usize) {
    // Above the paint, room for the frames that look through it afterwards.
    let mut room = [0_u64; 128];
    let top = black_box(&mut room).as_ptr().addr();
    let lowest = paint();
    call();
    black_box(&mut room);
    (top, lowest)
}

/// Paints the words below the caller's frame, and answers the lowest one's
/// address.
#[inline(never)]
fn paint() -> usize {
    let mut below = [PAINT; PAINTED];
    black_box(&mut below).as_ptr().expose_provenance()
}

/// The address of the lowest word, from this one on, that is not painted.
#[allow(unsafe_code)]
fn lowest_changed(lowest: usize) -> usize {
    let mut words = (lowest..).step_by(size_of::<u64>());
    // The words are aligned and were written to by this thread, so that its
    // stack has them; no value lives there any more that could be torn.
    let is_changed = |word: &usize| unsafe {
        let word: *const u64 = with_exposed_provenance(*word);
        word.read_volatile() != PAINT
    };
    words.find(is_changed).expect("paint ends")
}
