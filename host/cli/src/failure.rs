//! Why a command line gets no answer.

use std::fmt;
use std::io;
use std::process::ExitCode;
use tigbayon::Refusal;

/// Why a command line gets no answer.
#[derive(Debug)]
pub enum Failure {
    /// Its arguments cannot be read.
    Argument {
        /// Which of them, and what was expected.
        problem: String,
        /// The command whose help tells more; none if it is not known.
        command: Option<&'static str>,
    },
    /// The library refused the call.
    Refused {
        /// Why.
        refusal: Refusal,
        /// The part of the arguments that it was refused for, if one is named.
        part: Option<String>,
        /// Lines below that, if there is more to tell.
        below: Option<String>,
    },
    /// What is named here could not be written.
    Unwritten(String, io::Error),
}

/// The exit statuses and what they mean; the first is success.
pub const STATUSES: [(u8, &str); 5] = [
    (0, "the call was carried out"),
    (
        1,
        "an argument, or a line of a file, is missing, unknown, or not what it should be",
    ),
    (2, "the library refused the call"),
    (3, "the answer could not be written"),
    (4, "the compared controls do not move every word alike"),
];

/// The condition of each refusal, by rising number, in the words of
/// include/tigbayon.h.
pub const CONDITIONS: [&str; Refusal::ALL.len()] = [
    "width not 8, 16, 32, 64",
    "word or mask has a one at bit w or above",
    "a one in an unused control bit or stage",
    "permutation not w long; run list not a multiple of 4 bytes, or above 4,096 bytes",
    "permutation entry w or above, or repeated",
    "permutation not realised by the one network named",
    "kind not 1 to 10, or in kind 5 r1 not 1 to 4",
    "a register number in use above 15",
    "a above b, b above the length of the words that a and b cut, or either list above 2,048 words",
    "the other list of words shorter than its bits need",
    "a spare bit of the last packed word read is one",
    "subword size not 1, 2, 4, 8, 16, 32",
    "no rows, no words in a row, or the plane's length not their product",
    "another run waits, or none does, or the list is not the remainder",
    "the guarantees sum above the cycles of the frame",
];

/// The condition of a refusal.
pub fn condition(refusal: Refusal) -> &'static str {
    CONDITIONS[usize::from(refusal.number()) - 1]
}

impl Failure {
    /// A problem with an argument of a command that is not known yet.
    pub fn argument(problem: String) -> Self {
        let command = None;
        Failure::Argument { problem, command }
    }

    /// An argument after the last one that is expected.
    pub fn surplus(text: &str) -> Self {
        Failure::argument(format!("{text:?} is one too many"))
    }

    /// The same failure, of this command.
    pub fn of(self, name: &'static str) -> Self {
        match self {
            Failure::Argument { problem, .. } => {
                let command = Some(name);
                Failure::Argument { problem, command }
            }
            other => other,
        }
    }

    /// The same failure, of this part of the arguments or of a file.
    pub fn at(self, place: &str) -> Self {
        match self {
            Failure::Argument { problem, command } => {
                let problem = format!("{place}: {problem}");
                Failure::Argument { problem, command }
            }
            Failure::Refused { refusal, below, .. } => {
                let part = Some(place.to_string());
                Failure::Refused {
                    refusal,
                    part,
                    below,
                }
            }
            other => other,
        }
    }

    /// The same failure, with these lines below it if it is a refusal, above others that
    /// are there already.
    pub fn above(self, lines: String) -> Self {
        match self {
            Failure::Refused {
                refusal,
                part,
                below,
            } => {
                let lines = [lines].into_iter().chain(below);
                let below = Some(Vec::from_iter(lines).join("\n"));
                Failure::Refused {
                    refusal,
                    part,
                    below,
                }
            }
            other => other,
        }
    }

    /// The exit status, one of [`STATUSES`].
    pub fn status(&self) -> ExitCode {
        let (status, _) = match self {
            Failure::Argument { .. } => STATUSES[1],
            Failure::Refused { .. } => STATUSES[2],
            Failure::Unwritten(..) => STATUSES[3],
        };
        status.into()
    }
}

impl From<Refusal> for Failure {
    fn from(refusal: Refusal) -> Self {
        Failure::Refused {
            refusal,
            part: None,
            below: None,
        }
    }
}

impl fmt::Display for Failure {
    fn fmt(&self, f: &mut fmt::Formatter<'_>) -> fmt::Result {
        match self {
            Failure::Argument { problem, command } => {
                let of = command.map(|name| format!(" {name}")).unwrap_or_default();
                write!(f, "tigbayon{of}: {problem}\nsee tigbayon{of} --help")
            }
            Failure::Refused {
                refusal,
                part,
                below,
            } => {
                let (number, condition) = (refusal.number(), condition(*refusal));
                write!(f, "refused {number}: {condition}")?;
                part.iter().try_for_each(|part| write!(f, " ({part})"))?;
                let mut below = below.iter().map(|lines| lines.trim_end());
                below.try_for_each(|lines| write!(f, "\n{lines}"))
            }
            Failure::Unwritten(what, error) => write!(f, "cannot write {what}: {error}"),
        }
    }
}

#[cfg(test)]
mod tests {
    use super::*;

    const HEADER: &str = include_str!("../../../include/tigbayon.h");

    #[test]
    fn conditions_are_those_of_the_header() {
        let words: Vec<&str> = HEADER.split_whitespace().collect();
        let header = words.join(" ");
        for (number, condition) in (1..).zip(CONDITIONS) {
            let comment = format!("/* {condition} */");
            let place = header.find(&comment).expect(condition);
            let before = header[..place].trim_end().trim_end_matches(',');
            assert!(before.ends_with(&format!(" = {number}")), "{condition}");
        }
    }

    #[test]
    fn statuses_are_by_rising_number() {
        for (number, (status, _)) in (0..).zip(STATUSES) {
            assert_eq!(status, number);
        }
    }
}
