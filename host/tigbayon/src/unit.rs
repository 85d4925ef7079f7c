//! The register unit.

use crate::{ffi, Refusal};

/// The registers of a unit, which the host owns, with two bytes by which it polls how
/// runs ended, and the operations left of a run that waits; fresh by default, that is
/// all zero.
///
/// An operation is four bytes: kind, r1, r2, r3. The registers that it uses are
/// read before its result is written.
///
/// | Kind | Does | Cycles |
/// |---|---|---|
/// | 1, 2 | r1 = r2 through the butterfly at b, through the inverse at ib | 1 |
/// | 3 | r1 = (r2 and r3) through the inverse at ib | 1 |
/// | 4 | r1 = (r2 through the butterfly at b) and r3 | 1 |
/// | 5, r1 = 1 or 3 | the first two registers of b, of ib = r2, r3 | 1 |
/// | 5, r1 = 2 or 4 | the third register of b, of ib = r2 | 1 |
/// | 6, 7 | r1 = r2 gathered, scattered by r3 | 3 |
/// | 8, 9 | ib, b = the controls decoded from r3 | 2 |
/// | 10 | r1 = r2 grouped by r3 | 3 |
///
/// A byte that has no meaning there is not looked at. Kinds 6, 7 and 10 write the
/// word alone, no count.
///
/// Only [`run`](Bank::run()), [`continue_run`](Bank::continue_run()),
/// [`frame`](crate::frame()) and [`acknowledge`](Bank::acknowledge()) change the status
/// byte, only [`enable`](Bank::enable()) the enable byte.
///
/// A run that ends spent waits, until it is continued to its end, alone or in a frame, or
/// [dropped](Bank::drop_run()); operations and other runs are refused meanwhile. What
/// [`write`](Bank::write()) writes meanwhile the operations still to come see, as if it
/// stood in the list there.
#[repr(C)]
#[derive(Clone, Copy, Debug, PartialEq, Eq, Hash)]
pub struct Bank {
    /// The general registers, by their number.
    pub general: [u64; 16],
    /// The butterfly's controls: the first register holds its first stage in
    /// the low half and its second stage in the high half, and so on.
    pub b: [u64; 3],
    /// The inverse's controls, held likewise.
    pub ib: [u64; 3],
    /// The status byte, which [`status`](Bank::status()) reads; any byte is accepted.
    pub status: u8,
    /// The enable byte: the status bits for which the interrupt line is high.
    pub enable: u8,
    /// Whether a run waits: none does if it is 0, one does if it is any other number.
    pub waiting: u8,
    /// How many bytes of the list are left to run while a run waits; any number is
    /// accepted.
    pub left: u32,
    /// The operations left, from the next one on; [`remainder`](Bank::remainder()) has
    /// those alone.
    pub list: [u8; 4_096],
}

impl Default for Bank {
    fn default() -> Self {
        Bank {
            general: [0; 16],
            b: [0; 3],
            ib: [0; 3],
            status: 0,
            enable: 0,
            waiting: 0,
            left: 0,
            list: [0; 4_096],
        }
    }
}

/// How a run ended.
#[derive(Clone, Copy, Debug, PartialEq, Eq, Hash)]
#[repr(u8)]
pub enum End {
    /// Every operation was run.
    Done = 1,
    /// An operation is left and does not fit in what is left of the budget.
    Spent = 2,
}

/// What a run did, or a continued one by this call, or a channel of a frame.
#[derive(Clone, Copy, Debug, PartialEq, Eq, Hash)]
pub struct Run {
    /// How it ended.
    pub end: End,
    /// How many operations were run.
    pub ran: u32,
    /// The cycles that these used.
    pub cycles: u32,
}

impl Bank {
    /// Performs one operation and answers its cycles. If it is refused, the whole
    /// bank stays as it was.
    ///
    /// # Errors
    ///
    /// [`Refusal::Kind`], [`Refusal::Register`], and [`Refusal::Waiting`] if a run waits.
    ///
    /// ```
    /// use tigbayon::{Bank, Refusal};
    ///
    /// let mut bank = Bank::default();
    /// bank.general[2] = 0xB6;
    /// bank.general[3] = 0xAD;
    /// assert_eq!(bank.operate(6, 1, 2, 3), Ok(3));
    /// assert_eq!(bank.general[1], 0x1A);
    ///
    /// assert_eq!(bank.operate(0, 1, 2, 3), Err(Refusal::Kind));
    /// assert_eq!(bank.operate(6, 16, 2, 3), Err(Refusal::Register));
    /// ```
    pub fn operate(&mut self, kind: u8, r1: u8, r2: u8, r3: u8) -> Result<u32, Refusal> {
        ffi::tb_operate(self, kind, r1, r2, r3).into()
    }

    /// Runs a list of operations, at most 4,096 bytes, as long as the next
    /// one's cycles fit in what is left of the budget. If any of them would be
    /// refused, the run is.
    ///
    /// Sets bit 0 of the status byte if it ends done, bit 1 if it ends spent, bit 2 if
    /// it is refused, and leaves the others. A refused run changes nothing else. One
    /// that ends spent waits: the bank remembers the operations left.
    ///
    /// # Errors
    ///
    /// [`Refusal::Length`], [`Refusal::Kind`], [`Refusal::Register`], and
    /// [`Refusal::Waiting`] if a run waits already.
    ///
    /// ```
    /// use tigbayon::{Bank, End, Refusal, Run};
    ///
    /// let mut fresh = Bank::default();
    /// fresh.write(2, 0xB6)?;
    /// fresh.write(3, 0xAD)?;
    /// let list = [8, 0, 0, 3, 3, 1, 2, 3];
    ///
    /// let mut bank = fresh;
    /// let (end, ran, cycles) = (End::Done, 2, 3);
    /// assert_eq!(bank.run(&list, 3), Ok(Run { end, ran, cycles }));
    /// assert_eq!(bank.read(1), Ok(0x1A));
    /// assert_eq!(bank.status(), 0b001);
    ///
    /// let mut bank = fresh;
    /// let (end, ran, cycles) = (End::Spent, 1, 2);
    /// assert_eq!(bank.run(&list, 2), Ok(Run { end, ran, cycles }));
    /// assert_eq!(bank.read(1), Ok(0));
    /// assert_eq!(bank.status(), 0b010);
    ///
    /// assert_eq!(bank.run(&list[..5], 3), Err(Refusal::Length));
    /// assert_eq!(bank.status(), 0b110);
    /// # Ok::<(), tigbayon::Refusal>(())
    /// ```
    pub fn run(&mut self, operations: &[u8], budget: u32) -> Result<Run, Refusal> {
        ffi::tb_run(self, operations, budget).into()
    }

    /// Continues the run that waits, with a fresh budget, on the registers as they
    /// stand. `operations` are the [`remainder`](Bank::remainder()), in a copy of the
    /// host's own: of the list that was lent before, the end. What is run, answered
    /// and left is as in [`run`](Bank::run()), so that it may be continued again. A
    /// refused call leaves the run waiting.
    ///
    /// # Errors
    ///
    /// [`Refusal::Length`], [`Refusal::Kind`], [`Refusal::Register`], and
    /// [`Refusal::Waiting`] if no run waits, or if these are not the remainder byte for
    /// byte.
    ///
    /// ```
    /// use tigbayon::{Bank, End, Refusal, Run};
    ///
    /// let mut bank = Bank::default();
    /// bank.write(2, 0xB6)?;
    /// bank.write(3, 0xAD)?;
    /// let list = [8, 0, 0, 3, 3, 1, 2, 3];
    /// assert_eq!(bank.run(&list, 2)?.end, End::Spent);
    ///
    /// // Register 2 is loaded meanwhile.
    /// bank.write(2, 0xFF)?;
    /// assert_eq!(bank.continue_run(&list, 1), Err(Refusal::Waiting));
    /// let (end, ran, cycles) = (End::Done, 1, 1);
    /// assert_eq!(bank.continue_run(&list[4..], 1), Ok(Run { end, ran, cycles }));
    /// assert_eq!(bank.read(1), Ok(0x1F));
    ///
    /// assert_eq!(bank.continue_run(&[], 1), Err(Refusal::Waiting));
    /// assert_eq!(bank.status(), 0b111);
    /// # Ok::<(), tigbayon::Refusal>(())
    /// ```
    pub fn continue_run(&mut self, operations: &[u8], budget: u32) -> Result<Run, Refusal> {
        ffi::tb_continue(self, operations, budget).into()
    }

    /// Gives up the run that waits, if one does: the bank no longer waits, and all else
    /// in it stays as it was. Nothing is refused.
    ///
    /// ```
    /// use tigbayon::{Bank, Refusal};
    ///
    /// let mut bank = Bank::default();
    /// bank.run(&[1, 0, 1, 0], 0)?;
    /// assert_eq!(bank.operate(1, 0, 1, 0), Err(Refusal::Waiting));
    /// assert_eq!(bank.run(&[], 0), Err(Refusal::Waiting));
    /// bank.drop_run();
    /// assert_eq!(bank.operate(1, 0, 1, 0), Ok(1));
    /// # Ok::<(), tigbayon::Refusal>(())
    /// ```
    pub fn drop_run(&mut self) {
        ffi::tb_drop(self);
    }

    /// Answers whether a run waits.
    ///
    /// ```
    /// use tigbayon::Bank;
    ///
    /// let mut bank = Bank::default();
    /// assert!(!bank.waits());
    /// bank.run(&[1, 0, 1, 0], 0)?;
    /// assert!(bank.waits());
    /// bank.drop_run();
    /// assert!(!bank.waits());
    /// # Ok::<(), tigbayon::Refusal>(())
    /// ```
    pub fn waits(&self) -> bool {
        self.waiting != 0
    }

    /// The operations left of the run that waits: the only list by which it is
    /// continued. There is none if no run waits, or if `left` is above 4,096, as only a
    /// host can make it.
    ///
    /// ```
    /// use tigbayon::Bank;
    ///
    /// let mut bank = Bank::default();
    /// assert_eq!(bank.remainder(), None);
    /// bank.run(&[1, 0, 1, 0, 2, 3, 4, 0], 1)?;
    /// assert_eq!(bank.remainder(), Some(&[2, 3, 4, 0][..]));
    ///
    /// while let Some(rest) = bank.remainder().map(<[u8]>::to_vec) {
    ///     bank.continue_run(&rest, 1)?;
    /// }
    /// assert_eq!(bank.status(), 0b011);
    /// # Ok::<(), tigbayon::Refusal>(())
    /// ```
    pub fn remainder(&self) -> Option<&[u8]> {
        let left = usize::try_from(self.left).ok()?;
        self.waits().then(|| self.list.get(..left)).flatten()
    }

    /// Reads a general register.
    ///
    /// # Errors
    ///
    /// [`Refusal::Register`].
    ///
    /// ```
    /// use tigbayon::{Bank, Refusal};
    ///
    /// assert_eq!(Bank::default().read(15), Ok(0));
    /// assert_eq!(Bank::default().read(16), Err(Refusal::Register));
    /// ```
    pub fn read(&self, number: u8) -> Result<u64, Refusal> {
        ffi::tb_read(self, number).into()
    }

    /// Writes a general register. If that is refused, the whole bank stays as it
    /// was.
    ///
    /// # Errors
    ///
    /// [`Refusal::Register`].
    ///
    /// ```
    /// use tigbayon::{Bank, Refusal};
    ///
    /// let mut bank = Bank::default();
    /// assert_eq!(bank.write(15, 7), Ok(()));
    /// assert_eq!(bank.general[15], 7);
    /// assert_eq!(bank.write(16, 7), Err(Refusal::Register));
    /// ```
    pub fn write(&mut self, number: u8, value: u64) -> Result<(), Refusal> {
        Refusal::check(ffi::tb_write(self, number, value))
    }

    /// Reads the status byte: bit 0 is one if a run ended done, bit 1 if one ended
    /// spent, bit 2 if one was refused, since the bit was last acknowledged. Bits 3 to
    /// 7 read zero, whatever the byte holds. Nothing is refused.
    ///
    /// ```
    /// use tigbayon::Bank;
    ///
    /// let mut bank = Bank::default();
    /// assert_eq!(bank.status(), 0);
    /// let _ = bank.run(&[], 0);
    /// assert_eq!(bank.status(), 0b001);
    /// let _ = bank.run(&[0, 0, 0, 0], 0);
    /// assert_eq!(bank.status(), 0b101);
    ///
    /// bank.status = 0xFF;
    /// assert_eq!(bank.status(), 0b111);
    /// ```
    pub fn status(&self) -> u8 {
        ffi::tb_status(self)
    }

    /// Writes the enable byte, all its eight bits. Nothing is refused.
    ///
    /// ```
    /// use tigbayon::Bank;
    ///
    /// let mut bank = Bank::default();
    /// bank.enable(0b101);
    /// assert_eq!(bank.enable, 0b101);
    /// bank.enable(0b010);
    /// assert_eq!(bank.enable, 0b010);
    /// ```
    pub fn enable(&mut self, byte: u8) {
        ffi::tb_enable(self, byte);
    }

    /// Clears the status bits where `byte` has ones, all eight alike; the others stay
    /// as they were. Nothing is refused.
    ///
    /// ```
    /// use tigbayon::Bank;
    ///
    /// let mut bank = Bank { status: 0b111, ..Bank::default() };
    /// bank.acknowledge(0b101);
    /// assert_eq!(bank.status(), 0b010);
    /// bank.acknowledge(bank.status());
    /// assert_eq!(bank.status(), 0);
    /// ```
    pub fn acknowledge(&mut self, byte: u8) {
        ffi::tb_acknowledge(self, byte);
    }

    /// Answers whether the interrupt line is high: whether some bit is one both in
    /// what [`status`](Bank::status()) answers and in the enable byte. So bits 3 to 7
    /// do not count. Nothing is refused.
    ///
    /// ```
    /// use tigbayon::Bank;
    ///
    /// let mut bank = Bank::default();
    /// bank.enable(0b100);
    /// let _ = bank.run(&[], 0);
    /// assert!(!bank.interrupt());
    /// let _ = bank.run(&[0, 0, 0, 0], 0);
    /// assert!(bank.interrupt());
    /// bank.acknowledge(0b100);
    /// assert!(!bank.interrupt());
    /// ```
    pub fn interrupt(&self) -> bool {
        ffi::tb_interrupt(self) != 0
    }
}

impl End {
    /// Reads the library's number for a run that was not refused.
    pub(crate) fn of(number: u8) -> End {
        match number {
            1 => End::Done,
            2 => End::Spent,
            _ => panic!("libtigbayon answered unknown end {number}"),
        }
    }
}
