//! The register unit.

use crate::answer::Answer;
use crate::args::Given;
use crate::bank::{ended, polled, told};
use crate::command::{Argument, Choice, Command, Example};
use crate::failure::Failure;
use crate::number::Base;
use crate::turns::{Plan, WRITE};
use tigbayon::{Bank, Refusal, Run};

const OPERATIONS: &str = "OPERATIONS..";

/// Run.
pub const RUN: Command = Command {
    name: "run",
    about: "runs operations of the register unit while the budget lasts",
    arguments: &[Argument {
        name: OPERATIONS,
        about: "bytes, decimal, four to an operation: kind, r1, r2, r3",
    }],
    options: &[&[
        Choice::valued(
            "--budget",
            "N,N,..",
            "cycles, at most 4294967295, which is also the default; one N for each turn",
        ),
        Choice::valued(
            "--set",
            "R=WORD",
            "general register R, decimal, set to WORD, hexadecimal; again for more",
        )
        .repeated(),
        Choice::valued(
            "--write",
            WRITE,
            "the same before continuation K, decimal, from 1; again for more",
        )
        .repeated(),
        Choice::valued(
            "--enable",
            "BYTE",
            "the enable byte, hexadecimal, at most 0xFF; 0 by default",
        ),
    ]],
    notes: &[
        "\
Kind  Does                                                           Cycles
  1   r1 = r2 through the butterfly at b                                  1
  2   r1 = r2 through the inverse at ib                                   1
  3   r1 = (r2 and r3) through the inverse at ib                          1
  4   r1 = (r2 through the butterfly at b) and r3                         1
  5   r1 = 1: b1, b2 = r2, r3; 2: b3 = r2; 3: ib1, ib2 = r2, r3;
      4: ib3 = r2                                                         1
  6   r1 = r2 gathered by r3                                              3
  7   r1 = r2 scattered by r3                                             3
  8   ib = controls decoded from r3                                       2
  9   b = controls decoded from r3                                        2
 10   r1 = r2 grouped by r3                                               3
",
        "\
Registers are set first, each by a call of its own, then the enable byte. Prints how the run
ended, the status byte and the interrupt line, and every register that is not zero then.
",
        "\
Of several budgets the first starts the run; while it ends spent, the next one continues it on
the operations left. Every turn is printed. Before continuation K, which is turn K + 1, each
--write K:.. is made, in the order given, and the operations left see it. If the run waits at
the end, the operations left are printed so that they can be given again.
",
        "\
A turn sets a bit of the status byte: 0x1 if it ends done, 0x2 if spent, 0x4 if it is refused.
The interrupt line is high exactly if the enable byte has a one at a bit that is set. If the
run is refused, both are printed below the refusal; if a --set is, no run is made; if a
--write is, the turns before it are printed below the refusal, and what they left.
",
    ],
    refusals: &[Refusal::Length, Refusal::Kind, Refusal::Register],
    examples: &[
        Example {
            call: "run 8,0,0,3,3,1,2,3 --budget 3 --set 2=0xB6 --set 3=0xAD --enable 0x1",
            prints: "\
done, 2 run, 3 cycles
status 0x1 (done), interrupt line high
register 1 = 0x1A
register 2 = 0xB6
register 3 = 0xAD
ib1 = 0x55555551FFFFFFF5
ib2 = 0x1F1F1F1FEEEEEEE7
ib3 = 0x1F001F001F",
        },
        Example {
            call: "run 8,0,0,3,3,1,2,3 --budget 2 --set 2=0xB6 --set 3=0xAD --enable 0x1",
            prints: "\
spent, 1 run, 2 cycles
status 0x2 (spent), interrupt line low
register 2 = 0xB6
register 3 = 0xAD
ib1 = 0x55555551FFFFFFF5
ib2 = 0x1F1F1F1FEEEEEEE7
ib3 = 0x1F001F001F
waits, 1 left to run, 4 bytes
remainder 3,1,2,3",
        },
        Example {
            call: "run 8,0,0,3,3,1,2,3 --budget 2,1 --set 2=0xB6 --set 3=0xAD --write 1:2=0xFF",
            prints: "\
turn 1: spent, 1 run, 2 cycles
turn 2: done, 1 run, 1 cycles
status 0x3 (done, spent), interrupt line low
register 1 = 0x1F
register 2 = 0xFF
register 3 = 0xAD
ib1 = 0x55555551FFFFFFF5
ib2 = 0x1F1F1F1FEEEEEEE7
ib3 = 0x1F001F001F",
        },
        Example {
            call: "run 10 1 2 3 --budget 2,3,4 --set 2=0xB6 --set 3=0xAD",
            prints: "\
turn 1: spent, 0 run, 0 cycles
turn 2: done, 1 run, 3 cycles
status 0x3 (done, spent), interrupt line low
register 1 = 0x7A
register 2 = 0xB6
register 3 = 0xAD
budgets not used, the run was done in turn 2: 4",
        },
        Example {
            call: "run 10 1 2 3 --set 2=0xB6 --set 3=0xAD",
            prints: "\
done, 1 run, 3 cycles
status 0x1 (done), interrupt line low
register 1 = 0x7A
register 2 = 0xB6
register 3 = 0xAD",
        },
        Example {
            call: "run 0,1,2,3 --enable 0x4",
            prints: "\
refused 7: kind not 1 to 10, or in kind 5 r1 not 1 to 4
status 0x4 (refused), interrupt line high",
        },
        Example {
            call: "run 10 1 2 3 --set 16=0xB6",
            prints: "refused 8: a register number in use above 15",
        },
    ],
    perform: run,
};

fn run(given: &Given) -> Result<Answer, Failure> {
    let operations: Vec<u8> = given.argument(OPERATIONS).numbers(Base::Decimal)?;
    let plan = Plan::read(given)?;
    let enable = match given.option("--enable") {
        Some(text) => text.number(Base::Hexadecimal)?,
        None => 0,
    };
    let mut bank = Bank::default();
    for text in given.all("--set") {
        let (number, value) = text.pair(["R", "WORD"], [Base::Decimal, Base::Hexadecimal])?;
        bank.write(number, value)?;
    }
    bank.enable(enable);
    let mut turns = Vec::new();
    match plan.perform(&mut bank, &operations, &mut turns) {
        Ok(()) => {
            let not_needed = plan.not_needed(turns.len());
            Ok(Answer::of(outcome(&plan, &turns, &bank) + &not_needed))
        }
        Err(failure) if turns.is_empty() => Err(failure.above(polled(&bank))),
        Err(failure) => Err(failure.above(outcome(&plan, &turns, &bank))),
    }
}

/// What these turns answered, and what they left in the bank.
fn outcome(plan: &Plan, turns: &[Run], bank: &Bank) -> String {
    let answers = (1..).zip(turns).map(|(number, &turn)| {
        let turn = ended(turn);
        if plan.is_continued() {
            format!("turn {number}: {turn}")
        } else {
            turn
        }
    });
    told(answers, bank, &Bank::default())
}
