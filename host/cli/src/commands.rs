//! The commands.

mod compare;
mod drawn;
mod frame;
mod masks;
mod networks;
mod packing;
mod pixels;
mod planes;
mod routing;
mod subwords;
mod tiles;
mod unit;

use crate::command::Command;
use crate::failure::Failure;

/// All of them, in the order of the help.
pub const COMMANDS: [&Command; 21] = [
    &masks::GATHER,
    &masks::SCATTER,
    &masks::GROUP,
    &networks::DECODE,
    &networks::BUTTERFLY,
    &networks::INVERSE,
    &routing::ROUTE,
    &compare::COMPARE,
    &packing::PACK,
    &packing::UNPACK,
    &planes::PLANES,
    &planes::BYTES,
    &tiles::TILE,
    &subwords::CHECK,
    &subwords::EXCHECK,
    &subwords::MIX_LEFT,
    &subwords::MIX_RIGHT,
    &subwords::EXCHANGE,
    &pixels::DESPECKLE,
    &unit::RUN,
    &frame::FRAME,
];

/// The command of this name.
pub fn find(name: &str) -> Result<&'static Command, Failure> {
    let command = COMMANDS.into_iter().find(|command| command.name == name);
    command.ok_or_else(|| {
        let names = COMMANDS.map(|command| command.name).join(", ");
        Failure::argument(format!("COMMAND is {name:?}, expected one of {names}"))
    })
}
