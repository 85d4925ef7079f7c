//! The register unit beside its model.

use crate::call::assert_agree;
use crate::guards::only_read;
use model::refusal::{Answer, NONE};
pub use model::unit::{Bank, End, Operation, Run};
use std::fmt::Debug;
use std::iter::zip;
use tigbayon::{Refusal, TbBank, TbCycles, TbRegister, TbRun};

/// Performs one operation all three ways, panics unless they agree in the answer and
/// in every register and byte of the bank, hands the answer back and leaves the bank so.
pub fn operate(bank: &mut Bank, operation: Operation) -> Answer<u32> {
    let [kind, r1, r2, r3] = operation;
    let call = UnitCall {
        raw: |bank: &mut TbBank| cycles(tigbayon::tb_operate(bank, kind, r1, r2, r3)),
        wrapped: |bank: &mut tigbayon::Bank| bank.operate(kind, r1, r2, r3),
        model: |bank: &mut Bank| model::unit::operate(bank, operation),
    };
    call.check(|| format!("operate {operation:?}"), bank)
}

/// Runs a list, checked likewise.
pub fn run(bank: &mut Bank, list: &[u8], budget: u32) -> Answer<Run> {
    let call = UnitCall {
        raw: |bank: &mut TbBank| ran(only_read(list, |list| tigbayon::tb_run(bank, list, budget))),
        wrapped: |bank: &mut tigbayon::Bank| bank.run(list, budget).map(wrapped_run),
        model: |bank: &mut Bank| model::unit::run(bank, list, budget),
    };
    call.check(|| format!("run {list:?} {budget}"), bank)
}

/// Continues the run that waits, checked likewise.
pub fn continue_run(bank: &mut Bank, list: &[u8], budget: u32) -> Answer<Run> {
    let call = UnitCall {
        raw: |bank: &mut TbBank| {
            ran(only_read(list, |list| {
                tigbayon::tb_continue(bank, list, budget)
            }))
        },
        wrapped: |bank: &mut tigbayon::Bank| bank.continue_run(list, budget).map(wrapped_run),
        model: |bank: &mut Bank| model::unit::continue_run(bank, list, budget),
    };
    call.check(|| format!("continue {list:?} {budget}"), bank)
}

/// Drops the run that waits, checked likewise.
pub fn drop_run(bank: &mut Bank) {
    let call = UnitCall {
        raw: |bank: &mut TbBank| {
            tigbayon::tb_drop(bank);
            carried_out(())
        },
        wrapped: |bank: &mut tigbayon::Bank| {
            bank.drop_run();
            Ok(())
        },
        model: |bank: &mut Bank| {
            model::unit::drop_run(bank);
            carried_out(())
        },
    };
    call.check(|| "drop".into(), bank);
}

/// Reads a register, checked likewise; the bank must stay as it is.
pub fn read(bank: &Bank, number: u8) -> Answer<u64> {
    let call = UnitCall {
        raw: |bank: &mut TbBank| register(tigbayon::tb_read(bank, number)),
        wrapped: |bank: &mut tigbayon::Bank| bank.read(number),
        model: |bank: &mut Bank| model::unit::read(bank, number),
    };
    call.check(|| format!("read {number}"), &mut bank.clone())
}

/// Writes a register, checked likewise.
pub fn write(bank: &mut Bank, number: u8, value: u64) -> Answer<()> {
    let call = UnitCall {
        raw: |bank: &mut TbBank| Answer {
            refusal: tigbayon::tb_write(bank, number, value),
            result: (),
        },
        wrapped: |bank: &mut tigbayon::Bank| bank.write(number, value),
        model: |bank: &mut Bank| model::unit::write(bank, number, value),
    };
    call.check(|| format!("write {number} {value:x}"), bank)
}

/// Reads the status byte, checked likewise; the bank must stay as it is.
pub fn status(bank: &Bank) -> u8 {
    let call = UnitCall {
        raw: |bank: &mut TbBank| carried_out(tigbayon::tb_status(bank)),
        wrapped: |bank: &mut tigbayon::Bank| Ok(bank.status()),
        model: |bank: &mut Bank| carried_out(model::unit::status(bank)),
    };
    call.check(|| "status".into(), &mut bank.clone()).result
}

/// Writes the enable byte, checked likewise.
pub fn enable(bank: &mut Bank, byte: u8) {
    let call = UnitCall {
        raw: |bank: &mut TbBank| {
            tigbayon::tb_enable(bank, byte);
            carried_out(())
        },
        wrapped: |bank: &mut tigbayon::Bank| {
            bank.enable(byte);
            Ok(())
        },
        model: |bank: &mut Bank| {
            model::unit::enable(bank, byte);
            carried_out(())
        },
    };
    call.check(|| format!("enable {byte:x}"), bank);
}

/// Acknowledges status bits, checked likewise.
pub fn acknowledge(bank: &mut Bank, byte: u8) {
    let call = UnitCall {
        raw: |bank: &mut TbBank| {
            tigbayon::tb_acknowledge(bank, byte);
            carried_out(())
        },
        wrapped: |bank: &mut tigbayon::Bank| {
            bank.acknowledge(byte);
            Ok(())
        },
        model: |bank: &mut Bank| {
            model::unit::acknowledge(bank, byte);
            carried_out(())
        },
    };
    call.check(|| format!("acknowledge {byte:x}"), bank);
}

/// Answers whether the interrupt line is high, checked likewise: the library's number
/// is 1 or 0. The bank must stay as it is.
pub fn interrupt(bank: &Bank) -> bool {
    let call = UnitCall {
        raw: |bank: &mut TbBank| carried_out(tigbayon::tb_interrupt(bank)),
        wrapped: |bank: &mut tigbayon::Bank| Ok(bank.interrupt().into()),
        model: |bank: &mut Bank| carried_out(model::unit::interrupt(bank).into()),
    };
    call.check(|| "interrupt".into(), &mut bank.clone()).result == 1
}

/// Checks that a call on the bank, which is no run, is refused by this number, with
/// zeros for the rest, and leaves the whole bank as it was; or, if the number is 0,
/// that it is carried out.
pub fn assert_number<R>(number: u8, bank: &Bank, call: impl FnOnce(&mut Bank) -> Answer<R>)
where
    R: Debug + Default + PartialEq,
{
    let mut after = *bank;
    let answer = call(&mut after);
    assert_eq!(answer.refusal, number);
    if number != 0 {
        assert_eq!(answer, Answer::refused(number));
        assert_eq!(after, *bank, "refusal {number}");
    }
}

/// Checks that a run is refused by this number, with zeros for the rest, and sets
/// status bit 2 and changes nothing else; or, if the number is 0, that it is carried
/// out.
pub fn assert_run_number(number: u8, bank: &Bank, list: &[u8], budget: u32) {
    assert_number_of(run, number, bank, list, budget);
}

/// The same of a continued run.
pub fn assert_continued_number(number: u8, bank: &Bank, list: &[u8], budget: u32) {
    assert_number_of(continue_run, number, bank, list, budget);
}

/// [`run`] or [`continue_run`].
pub type RunCall = fn(&mut Bank, &[u8], u32) -> Answer<Run>;

fn assert_number_of(call: RunCall, number: u8, bank: &Bank, list: &[u8], budget: u32) {
    let mut after = *bank;
    let answer = call(&mut after, list, budget);
    assert_eq!(answer.refusal, number);
    if number != 0 {
        assert_eq!(answer, Answer::refused(number));
        let expected = with_status(bank, status_bit(End::Refused));
        assert_eq!(after, expected, "refusal {number}");
    }
}

/// The general and settings registers.
pub fn registers(bank: &Bank) -> ([u64; 16], [u64; 3], [u64; 3]) {
    (bank.general, bank.b, bank.ib)
}

/// The bank with these status bits set.
pub fn with_status(bank: &Bank, bits: u8) -> Bank {
    let status = bank.status | bits;
    Bank { status, ..*bank }
}

/// The status bit that a run which ends so sets.
pub fn status_bit(end: End) -> u8 {
    match end {
        End::Done => 0b001,
        End::Spent => 0b010,
        End::Refused => 0b100,
    }
}

/// The bank as the library has it.
pub fn lent(bank: &Bank) -> tigbayon::Bank {
    let Bank {
        general,
        b,
        ib,
        status,
        enable,
        waiting,
        left,
        list,
    } = *bank;
    tigbayon::Bank {
        general,
        b,
        ib,
        status,
        enable,
        waiting,
        left,
        list,
    }
}

/// A call on a bank, or on several: as the archive exports it, as the wrapper offers
/// it, and as the model defines it.
pub(crate) struct UnitCall<L, W, M> {
    pub raw: L,
    pub wrapped: W,
    pub model: M,
}

impl<L, W, M> UnitCall<L, W, M> {
    fn check<R>(self, name: impl Fn() -> String, bank: &mut Bank) -> Answer<R>
    where
        R: Copy + Debug + PartialEq,
        L: FnOnce(&mut TbBank) -> Answer<R>,
        W: FnOnce(&mut tigbayon::Bank) -> Result<R, Refusal>,
        M: FnOnce(&mut Bank) -> Answer<R>,
    {
        let call = UnitCall {
            raw: |[bank]: [&mut TbBank; 1]| (self.raw)(bank),
            wrapped: |[bank]: [&mut tigbayon::Bank; 1]| (self.wrapped)(bank),
            model: |[bank]: [&mut Bank; 1]| (self.model)(bank),
        };
        call.check_each(name, [bank])
    }

    /// Makes the call all three ways on these banks, panics unless they agree in the
    /// answer and in every register and byte of each bank, hands the answer back and
    /// leaves the banks so.
    pub fn check_each<R, const N: usize>(
        self,
        name: impl Fn() -> String,
        mut banks: [&mut Bank; N],
    ) -> Answer<R>
    where
        R: Copy + Debug + PartialEq,
        L: FnOnce([&mut TbBank; N]) -> Answer<R>,
        W: FnOnce([&mut tigbayon::Bank; N]) -> Result<R, Refusal>,
        M: FnOnce([&mut Bank; N]) -> Answer<R>,
    {
        let before = banks.each_ref().map(|bank| lent(bank));
        let model = (self.model)(banks.each_mut().map(|bank| &mut **bank));
        let input = || format!("{} {before:x?}", name());
        let (library, by_library) = guarded(&before, &banks, self.raw);
        let (wrapped, by_wrapper) = guarded(&before, &banks, self.wrapped);
        assert_agree(input, library, model, wrapped);
        for (by, other) in [("library", by_library), ("wrapper", by_wrapper)] {
            if let Some(other) = other {
                panic!("{}: {by} {other:x?}, model {banks:x?}", input());
            }
        }
        model
    }
}

/// What a call answers on copies of the banks, and the copies then if they are not as
/// expected; a word on either side of each, which is not lent, must stay.
fn guarded<A, const N: usize>(
    before: &[TbBank; N],
    expected: &[&mut Bank; N],
    call: impl FnOnce([&mut TbBank; N]) -> A,
) -> (A, Option<Vec<TbBank>>) {
    const NOT_LENT: u64 = 0x5AA5_0FF0_3CC3_9669;
    #[repr(C)]
    struct Guarded(u64, TbBank, u64);
    let mut copies = before.map(|bank| Guarded(NOT_LENT, bank, NOT_LENT));
    let answer = call(copies.each_mut().map(|copy| &mut copy.1));
    for copy in &copies {
        assert_eq!([copy.0, copy.2], [NOT_LENT; 2]);
    }
    let same = zip(&copies, expected).all(|(copy, expected)| is_as(&copy.1, expected));
    let other = || copies.iter().map(|copy| copy.1).collect();
    (answer, (!same).then(other))
}

/// Whether the library's bank is as the model's, in every register and byte.
fn is_as(after: &TbBank, expected: &Bank) -> bool {
    let TbBank {
        general,
        b,
        ib,
        status,
        enable,
        waiting,
        left,
        list,
    } = after;
    let bytes = [*status, *enable, *waiting];
    *general == expected.general
        && [*b, *ib] == [expected.b, expected.ib]
        && bytes == [expected.status, expected.enable, expected.waiting]
        && *left == expected.left
        && *list == expected.list
}

/// The answer of a call that refuses nothing.
fn carried_out<R>(result: R) -> Answer<R> {
    let refusal = NONE;
    Answer { refusal, result }
}

fn cycles(TbCycles { refusal, cycles }: TbCycles) -> Answer<u32> {
    let result = cycles;
    Answer { refusal, result }
}

fn register(TbRegister { refusal, value }: TbRegister) -> Answer<u64> {
    let result = value;
    Answer { refusal, result }
}

fn ran(answer: TbRun) -> Answer<Run> {
    let TbRun {
        refusal,
        end,
        ran,
        cycles,
    } = answer;
    let end = end_of(end);
    let result = Run { end, ran, cycles };
    Answer { refusal, result }
}

/// The end of this number.
pub(crate) fn end_of(number: u8) -> End {
    let ends = [End::Refused, End::Done, End::Spent];
    ends[usize::from(number)]
}

/// The wrapper's answer as the model has it.
pub(crate) fn wrapped_run(tigbayon::Run { end, ran, cycles }: tigbayon::Run) -> Run {
    let end = match end {
        tigbayon::End::Done => End::Done,
        tigbayon::End::Spent => End::Spent,
    };
    Run { end, ran, cycles }
}
