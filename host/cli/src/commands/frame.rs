//! Four channels in one frame.

use super::drawn::{Forms, SVG};
use crate::answer::Answer;
use crate::args::Given;
use crate::command::{Argument, Choice, Command, Example};
use crate::drawing::bars;
use crate::failure::Failure;
use crate::frames::Frames;
use crate::schedule;
use std::fs;
use std::io;
use tigbayon::Refusal;

const FILE: &str = "FILE";

/// The file name that means the standard input.
const INPUT: &str = "-";

const UNTIL_DONE: &str = "--until-done";

/// Frame.
pub const FRAME: Command = Command {
    name: "frame",
    about: "runs four channels in one frame, and draws what each used of it",
    arguments: &[Argument {
        name: FILE,
        about: "what the channels bring, in lines as below; - for the standard input",
    }],
    options: &[&[
        Choice::flag(
            UNTIL_DONE,
            "go on with frames as the last one, until no channel waits",
        ),
        Choice {
            about: "draw the bars into the file, or with - to the output",
            ..SVG
        },
    ]],
    notes: &[
        "\
Line                   Says
frame cycles N         a frame of N cycles begins
channel C guarantee N  channel C, 0 to 3, has this guarantee in it; the lines below are its
set R=WORD             general register R, decimal, is set to WORD, hexadecimal
enable BYTE            the enable byte, hexadecimal
run BYTES              its operations, as the command run takes them; again for more
",
        "\
A # begins a comment. Registers and enable bytes are set before any channel runs. A channel
without a line of operations brings those that it has left if it waits, and else none. A
later frame keeps the cycles and guarantees that it does not say anew: frame and channel C
alone will do. A guarantee that was never said is 0.
",
        "\
In number order each channel runs within its guarantee. What the four left of their
guarantees is the rest: in number order those that are not done run on within what is left
of it. Prints for each frame a bar of the cycles of each channel, then how each one ended,
its status byte and interrupt line, the registers that the frame changed, and the
operations left if it waits.
",
        "\
The refusal of a frame, or of a register to set, names its line. The frames before it are
printed below, and of a refused frame the status bytes. With --until-done no frame follows
one in which nothing is run: it would be the same again.
",
        "\
In the examples channels.txt holds:
  # Channels 0 and 1 need more than their guarantees, channel 2 needs less.
  frame cycles 8
  channel 0 guarantee 2
  set 2=0xB6
  set 3=0xAD
  run 8,0,0,3,3,1,2,3
  channel 1 guarantee 1
  set 2=0x1
  run 1,1,2,0,1,3,2,0
  run 10,4,2,2
  channel 2 guarantee 4
  run 1,0,1,0
",
        "\
And above.txt holds:
  frame cycles 8
  channel 0 guarantee 4
  channel 3 guarantee 5
",
    ],
    refusals: &[
        Refusal::Length,
        Refusal::Kind,
        Refusal::Register,
        Refusal::Waiting,
        Refusal::Frame,
    ],
    examples: &[
        Example {
            call: "frame channels.txt --svg bars.svg",
            prints: "\
frame 1: 8 cycles; guarantees 7, used 4; rest 3, used 2
channel 0  ■■+   2 of 2, 1 from the rest
channel 1  ■+    1 of 1, 1 from the rest
channel 2  ■□□□  1 of 4
channel 3        0 of 0
■ used of its guarantee  □ left of it  + used of the rest  a cell is a cycle

channel 0: done, 2 run, 3 cycles
status 0x1 (done), interrupt line low
register 1 = 0x1A
ib1 = 0x55555551FFFFFFF5
ib2 = 0x1F1F1F1FEEEEEEE7
ib3 = 0x1F001F001F

channel 1: spent, 2 run, 2 cycles
status 0x2 (spent), interrupt line low
register 1 = 0x8000000000000000
register 3 = 0x8000000000000000
waits, 1 left to run, 4 bytes
remainder 10,4,2,2

channel 2: done, 1 run, 1 cycles
status 0x1 (done), interrupt line low

channel 3: done, 0 run, 0 cycles
status 0x1 (done), interrupt line low",
        },
        Example {
            call: "frame above.txt",
            prints: "\
refused 15: the guarantees sum above the cycles of the frame (line 1)
channel 0: status 0x4 (refused), interrupt line low
channel 1: status 0x4 (refused), interrupt line low
channel 2: status 0x4 (refused), interrupt line low
channel 3: status 0x4 (refused), interrupt line low",
        },
    ],
    perform: frame,
};

fn frame(given: &Given) -> Result<Answer, Failure> {
    let planned = schedule::read(&contents(given.argument(FILE).text())?)?;
    let mut frames = Frames::default();
    let mut performed = frames.perform(&planned);
    if let (true, Some(last)) = (given.has(UNTIL_DONE), planned.last()) {
        performed = performed.and_then(|()| frames.go_on(last));
    }
    let outcome = outcome(&frames);
    match performed {
        Ok(()) => {
            let forms = Forms {
                plain: || outcome.clone(),
                text: || outcome.clone(),
                svg: || bars::svg(&frames.carried),
            };
            forms.asked_for(given)
        }
        Err(failure) if outcome.is_empty() => Err(failure),
        Err(failure) => Err(failure.above(outcome)),
    }
}

/// What the file holds.
fn contents(name: &str) -> Result<String, Failure> {
    let read = match name {
        INPUT => io::read_to_string(io::stdin()),
        name => fs::read_to_string(name),
    };
    read.map_err(|error| Failure::argument(format!("cannot read {name:?}: {error}")))
}

/// The frames carried out: each one's bars, then what the channels answered.
fn outcome(frames: &Frames) -> String {
    let carried = &frames.carried;
    let blocks = bars::texts(carried).zip(carried).flat_map(|(bars, frame)| {
        let told = frame.shares.iter().map(|share| share.told.clone());
        [bars].into_iter().chain(told)
    });
    Vec::from_iter(blocks).join("\n")
}
