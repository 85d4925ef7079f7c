//! The frames that a text file asks for.

use crate::args::{unexpected, Text};
use crate::failure::Failure;
use crate::number::Base;
use tigbayon::Bank;

/// How many channels a frame has.
pub const CHANNELS: usize = 4;

/// What begins a comment.
const COMMENT: char = '#';

/// A frame, and what the channels bring to it.
#[derive(Debug, Default)]
pub struct Frame {
    /// Where it begins.
    pub place: String,
    /// Its cycles.
    pub cycles: u32,
    /// The channels.
    pub channels: [Channel; CHANNELS],
}

/// What a channel brings to a frame.
#[derive(Debug, Default)]
pub struct Channel {
    /// Its guarantee.
    pub guarantee: u32,
    sets: Vec<Set>,
    enable: Option<u8>,
    operations: Option<Vec<u8>>,
}

/// A general register that is set before the frame.
#[derive(Debug)]
struct Set {
    place: String,
    number: u8,
    value: u64,
}

/// The frames of this text, of which there is at least one.
pub fn read(text: &str) -> Result<Vec<Frame>, Failure> {
    let mut reader = Reader::default();
    for (number, line) in (1..).zip(text.lines()) {
        let line = line.split(COMMENT).next().unwrap_or_default().trim();
        if !line.is_empty() {
            let place = format!("line {number}");
            let taken = reader.take(&place, line);
            taken.map_err(|failure| failure.at(&place))?;
        }
    }
    if reader.frames.is_empty() {
        return Err(Failure::argument("FILE has no frame".to_string()));
    }
    Ok(reader.frames)
}

impl Frame {
    /// The next frame, where nothing new is brought to it.
    pub fn next(&self) -> Frame {
        Frame {
            place: self.place.clone(),
            cycles: self.cycles,
            channels: self.channels.each_ref().map(|channel| Channel {
                guarantee: channel.guarantee,
                ..Channel::default()
            }),
        }
    }
}

impl Channel {
    /// Sets registers and the enable byte of its bank.
    pub fn prepare(&self, bank: &mut Bank) -> Result<(), Failure> {
        for set in &self.sets {
            let written = bank.write(set.number, set.value);
            written.map_err(|refusal| Failure::from(refusal).at(&set.place))?;
        }
        if let Some(byte) = self.enable {
            bank.enable(byte);
        }
        Ok(())
    }

    /// Its list: the one given, or else what is left of the run that waits, if one does.
    pub fn list(&self, bank: &Bank) -> Vec<u8> {
        let left = || bank.remainder().unwrap_or_default().to_vec();
        self.operations.clone().unwrap_or_else(left)
    }

    /// Takes a line about it.
    fn take(&mut self, place: &str, line: &Text) -> Result<(), Failure> {
        match line.name() {
            "set" => {
                let bases = [Base::Decimal, Base::Hexadecimal];
                let (number, value) = line.pair(["R", "WORD"], bases)?;
                let place = place.to_string();
                self.sets.push(Set {
                    place,
                    number,
                    value,
                });
            }
            "enable" => {
                let byte = line.number(Base::Hexadecimal)?;
                if self.enable.replace(byte).is_some() {
                    return Err(Failure::argument("enable is given twice".to_string()));
                }
            }
            _ => {
                let operations: Vec<u8> = line.numbers(Base::Decimal)?;
                self.operations.get_or_insert_default().extend(operations);
            }
        }
        Ok(())
    }
}

/// What is read so far.
#[derive(Default)]
struct Reader {
    frames: Vec<Frame>,
    /// The channels of the last frame, in the order given.
    given: Vec<usize>,
}

impl Reader {
    fn take(&mut self, place: &str, line: &str) -> Result<(), Failure> {
        let (word, value) = first_word(line);
        match word {
            "frame" => self.begin(place, value),
            "channel" => self.turn_to(value),
            "set" | "enable" | "run" => {
                let number = self.given.last().copied();
                let channels = self.frames.last_mut().map(|frame| &mut frame.channels);
                let (Some(number), Some(channels)) = (number, channels) else {
                    return Err(Failure::argument(format!(
                        "{word} needs a channel above it"
                    )));
                };
                channels[number].take(place, &Text::part(word, value))
            }
            _ => {
                let expected = "frame, channel, set, enable or run";
                Err(unexpected("the first word", word, expected))
            }
        }
    }

    /// Begins a frame.
    fn begin(&mut self, place: &str, value: &str) -> Result<(), Failure> {
        let cycles = labelled("cycles", "frame", value)?;
        let next = self.frames.last().map(Frame::next);
        let Some(cycles) = cycles.or(next.as_ref().map(|next| next.cycles)) else {
            return Err(Failure::argument("the first frame needs cycles N".into()));
        };
        self.frames.push(Frame {
            place: place.to_string(),
            cycles,
            ..next.unwrap_or_default()
        });
        self.given.clear();
        Ok(())
    }

    /// Turns to a channel of the last frame.
    fn turn_to(&mut self, value: &str) -> Result<(), Failure> {
        let (number, value) = first_word(value);
        let expected = format!("a channel, from 0 to {}", CHANNELS - 1);
        let read = Base::Decimal.read(number);
        let number = read
            .filter(|&number| number < CHANNELS)
            .ok_or_else(|| unexpected("channel", number, &expected))?;
        let name = format!("channel {number}");
        let guarantee = labelled("guarantee", &name, value)?;
        let Some(frame) = self.frames.last_mut() else {
            return Err(Failure::argument("channel needs a frame above it".into()));
        };
        if self.given.contains(&number) {
            return Err(Failure::argument(format!("{name} is given twice")));
        }
        let channel = &mut frame.channels[number];
        channel.guarantee = guarantee.unwrap_or(channel.guarantee);
        self.given.push(number);
        Ok(())
    }
}

/// The first word of a line, and what follows it.
fn first_word(line: &str) -> (&str, &str) {
    let (word, rest) = line.split_once(char::is_whitespace).unwrap_or((line, ""));
    (word, rest.trim_start())
}

/// The number after this label, which is of that; none if nothing is given.
fn labelled(label: &str, of: &str, value: &str) -> Result<Option<u32>, Failure> {
    if value.is_empty() {
        return Ok(None);
    }
    let (found, number) = first_word(value);
    if found != label {
        return Err(unexpected(of, value, &format!("{label} N")));
    }
    let name = format!("{label} of {of}");
    Text::part(&name, number).number(Base::Decimal).map(Some)
}
