//! A run of the register unit in turns, each with a budget of its own.

use crate::args::{unexpected, Given, Text};
use crate::failure::Failure;
use crate::number::{list, Base};
use tigbayon::{Bank, End, Run};

/// How a write is typed.
pub const WRITE: &str = "K:R=WORD";

/// The budgets of a run, one for each turn, and what is written between the turns.
pub struct Plan<'a> {
    budgets: Vec<u32>,
    writes: Vec<Write<'a>>,
}

/// A general register that is written while the run waits.
struct Write<'a> {
    /// As it was typed.
    text: &'a str,
    /// The continuation that it comes before, from 1.
    continuation: usize,
    number: u8,
    value: u64,
}

impl<'a> Plan<'a> {
    /// Reads the options for it. There is a continuation for each budget but the first.
    pub fn read(given: &'a Given) -> Result<Self, Failure> {
        let budgets = match given.option("--budget") {
            Some(text) => text.one_or_more(Base::Decimal)?,
            None => vec![u32::MAX],
        };
        let continuations = budgets.len() - 1;
        let writes = given.all("--write");
        let writes = writes.map(|text| Write::read(&text, continuations));
        let writes = writes.collect::<Result<_, Failure>>()?;
        Ok(Plan { budgets, writes })
    }

    /// Whether it has budgets for more than one turn.
    pub fn is_continued(&self) -> bool {
        self.budgets.len() > 1
    }

    /// Takes the turns until the run is done, or no budget is left, or a call is refused.
    /// What each of them answers is added to `turns`, empty before.
    pub fn perform(
        &self,
        bank: &mut Bank,
        operations: &[u8],
        turns: &mut Vec<Run>,
    ) -> Result<(), Failure> {
        let mut rest = operations;
        for &budget in &self.budgets {
            let turn = match turns.len() {
                0 => bank.run(rest, budget)?,
                continuation => {
                    self.write_before(continuation, bank)?;
                    bank.continue_run(rest, budget)?
                }
            };
            turns.push(turn);
            if turn.end == End::Done {
                break;
            }
            rest = &rest[4 * turn.ran as usize..];
        }
        Ok(())
    }

    /// Makes the writes that come before this continuation, in the order typed.
    fn write_before(&self, continuation: usize, bank: &mut Bank) -> Result<(), Failure> {
        let writes = self.writes.iter();
        for write in writes.filter(|write| write.continuation == continuation) {
            let written = bank.write(write.number, write.value);
            let part = format!("--write {}", write.text);
            written.map_err(|refusal| Failure::from(refusal).at(&part))?;
        }
        Ok(())
    }

    /// A line for the budgets and one for the writes that the run, which took so many
    /// turns, was done without.
    pub fn not_needed(&self, turns: usize) -> String {
        let budgets = self.budgets[turns..].iter().map(u32::to_string);
        let writes = self.writes.iter();
        let writes = writes.filter(|write| write.continuation >= turns);
        let kinds = [
            ("budgets not used", list(budgets)),
            (
                "writes not made",
                list(writes.map(|write| write.text.to_string())),
            ),
        ];
        let said = kinds.iter().filter(|(_, list)| !list.is_empty());
        let lines =
            said.map(|(kind, list)| format!("{kind}, the run was done in turn {turns}: {list}\n"));
        lines.collect()
    }
}

impl<'a> Write<'a> {
    /// Reads it, where there are so many continuations.
    fn read(text: &Text<'a>, continuations: usize) -> Result<Self, Failure> {
        let parts = text.text().split_once(':');
        let Some((before, pair)) = parts.filter(|(_, pair)| pair.contains('=')) else {
            return Err(unexpected(text.name(), text.text(), WRITE));
        };
        let before = Text::part("K of --write", before);
        let continuation = before.number(Base::Decimal)?;
        let bases = [Base::Decimal, Base::Hexadecimal];
        let (number, value) = Text::part(text.name(), pair).pair(["R", "WORD"], bases)?;
        if continuations == 0 {
            let problem = "--write needs a continued run, by two budgets or more";
            return Err(Failure::argument(problem.to_string()));
        }
        if !(1..=continuations).contains(&continuation) {
            let expected = format!(
                "a continuation, from 1 to {continuations}, one less than there are budgets"
            );
            return Err(unexpected(before.name(), before.text(), &expected));
        }
        Ok(Write {
            text: text.text(),
            continuation,
            number,
            value,
        })
    }
}
