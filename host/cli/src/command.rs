//! What a command consists of.

use crate::answer::Answer;
use crate::args::Given;
use crate::failure::Failure;
use tigbayon::Refusal;

/// A command: what its help says, and what it does.
pub struct Command {
    /// Its name.
    pub name: &'static str,
    /// What it does, in one line.
    pub about: &'static str,
    /// The arguments that it needs, in turn.
    pub arguments: &'static [Argument],
    /// The options that it has, in groups.
    pub options: &'static [&'static [Choice]],
    /// What else there is to know, by paragraphs.
    pub notes: &'static [&'static str],
    /// How its call can be refused.
    pub refusals: &'static [Refusal],
    /// Calls and what they print.
    pub examples: &'static [Example],
    /// What it does.
    pub perform: fn(&Given) -> Result<Answer, Failure>,
}

/// An argument that a command needs.
pub struct Argument {
    /// Its name.
    pub name: &'static str,
    /// What it is.
    pub about: &'static str,
}

/// An option of a command.
pub struct Choice {
    /// Its name.
    pub name: &'static str,
    /// The name of its value, if it takes one.
    pub value: Option<&'static str>,
    /// Whether it may be given more than once.
    pub repeats: bool,
    /// What it does.
    pub about: &'static str,
}

/// A call and what it prints.
pub struct Example {
    /// The command line after `tigbayon`.
    pub call: &'static str,
    /// All that it prints.
    pub prints: &'static str,
}

/// The width of a word, which many commands need.
pub const WIDTH: Argument = Argument {
    name: "WIDTH",
    about: "8, 16, 32 or 64; w for short",
};

/// The mask, which many commands need.
pub const MASK: Argument = Argument {
    name: "MASK",
    about: "hexadecimal; its ones mark bits",
};

impl Command {
    /// The options of all groups.
    pub fn choices(&self) -> impl Iterator<Item = &'static Choice> {
        self.options.iter().copied().flatten()
    }
}

impl Choice {
    /// An option without a value.
    pub const fn flag(name: &'static str, about: &'static str) -> Self {
        let (value, repeats) = (None, false);
        Choice {
            name,
            value,
            repeats,
            about,
        }
    }

    /// An option with a value.
    pub const fn valued(name: &'static str, value: &'static str, about: &'static str) -> Self {
        Choice {
            value: Some(value),
            ..Choice::flag(name, about)
        }
    }

    /// The same option, which may be given more than once.
    pub const fn repeated(self) -> Self {
        Choice {
            repeats: true,
            ..self
        }
    }

    /// The option as it is typed.
    pub fn typed(&self) -> String {
        match self.value {
            Some(value) => format!("{} {value}", self.name),
            None => self.name.to_string(),
        }
    }
}
