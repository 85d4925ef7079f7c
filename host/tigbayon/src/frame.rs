//! Four channels in one frame.

use crate::{ffi, Bank, Refusal, Run};

/// Runs four channels, numbered 0 to 3, each with a bank and a list of operations, in a
/// frame of so many cycles, and answers for each what it did.
///
/// In number order each channel runs within its guarantee. What the four left of their
/// guarantees is one sum, the rest, which is offered in number order to those not done:
/// each runs on within what is left of it. Cycles beyond the sum of the guarantees are
/// not handed out.
///
/// Where a bank waits, its list is that of a continued run, the
/// [`remainder`](Bank::remainder()), in a copy of the host's own; else it is that of a
/// new one. At the end each bank is left as by one [run](Bank::run()) of the operations
/// of both turns: done, or spent and waiting. A refused frame sets bit 2 of all four
/// status bytes and changes nothing else.
///
/// # Errors
///
/// The lowest over all four lists of [`Refusal::Length`], [`Refusal::Kind`],
/// [`Refusal::Register`], and [`Refusal::Waiting`] if a bank waits and its list is not
/// the remainder; else [`Refusal::Frame`] if the guarantees sum above `cycles`.
///
/// ```
/// use tigbayon::{frame, Bank, End, Refusal, Run};
///
/// // An operation of 2 cycles and one of 1, three of 1, one of 1, and none.
/// let lists: [&[u8]; 4] = [
///     &[8, 0, 0, 3, 3, 1, 2, 3],
///     &[1, 0, 1, 0, 1, 2, 3, 0, 1, 4, 5, 0],
///     &[1, 0, 1, 0],
///     &[],
/// ];
/// let guarantees = [2, 1, 2, 2];
/// let mut banks = [Bank::default(); 4];
/// assert_eq!(frame(banks.each_mut(), lists, guarantees, 6), Err(Refusal::Frame));
///
/// // Channel 2 leaves 1 of its cycles and channel 3 both. Of these three channel 0 takes
/// // one and channel 1 the other two: by their guarantees alone they would be spent.
/// let run = |ran, cycles| Run { end: End::Done, ran, cycles };
/// let answers = frame(banks.each_mut(), lists, guarantees, 7)?;
/// assert_eq!(answers, [run(2, 3), run(3, 3), run(1, 1), run(0, 0)]);
/// assert_eq!(banks.map(|bank| bank.status()), [0b101; 4]);
///
/// // With nothing to take from the others, channel 1 waits.
/// let answers = frame(banks.each_mut(), lists, [3, 1, 1, 0], 7)?;
/// assert_eq!(answers[1], Run { end: End::Spent, ran: 1, cycles: 1 });
/// assert_eq!(banks[1].remainder(), Some(&lists[1][4..]));
/// # Ok::<(), tigbayon::Refusal>(())
/// ```
///
/// The four banks are different ones, or it does not compile:
///
/// ```compile_fail,E0499
/// let [mut bank, mut two, mut three] = [tigbayon::Bank::default(); 3];
/// let banks = [&mut bank, &mut two, &mut three, &mut bank];
/// tigbayon::frame(banks, [&[]; 4], [0; 4], 0);
/// ```
pub fn frame(
    banks: [&mut Bank; 4],
    lists: [&[u8]; 4],
    guarantees: [u32; 4],
    cycles: u32,
) -> Result<[Run; 4], Refusal> {
    ffi::tb_frame(banks, lists, &guarantees, cycles).into()
}
