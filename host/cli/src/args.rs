//! The arguments of a command, by name.

use crate::command::{Choice, Command};
use crate::failure::Failure;
use crate::number::Base;
use std::slice::Iter;

/// What marks an option.
const OPTION: &str = "--";

/// The arguments and options that a command was given.
#[derive(Debug, Default)]
pub struct Given {
    values: Vec<(&'static str, String)>,
}

/// One of them.
#[derive(Debug)]
pub struct Text<'a> {
    name: &'a str,
    text: &'a str,
}

impl Given {
    /// Reads what stands after the name of the command.
    pub fn read(command: &Command, args: &[String]) -> Result<Self, Failure> {
        let mut given = Given::default();
        let mut plain = Vec::new();
        let mut args = args.iter();
        while let Some(arg) = args.next() {
            if arg.starts_with(OPTION) {
                given.take_option(command, arg, &mut args)?;
            } else {
                plain.push(arg.as_str());
            }
        }
        given.take_arguments(command, &plain)?;
        Ok(given)
    }

    /// Takes an option, and its value from itself or from the next argument.
    fn take_option(
        &mut self,
        command: &Command,
        arg: &str,
        args: &mut Iter<'_, String>,
    ) -> Result<(), Failure> {
        let (name, attached) = match arg.split_once('=') {
            Some((name, value)) => (name, Some(value)),
            None => (arg, None),
        };
        let unknown = || Failure::argument(format!("{name} is no option of {}", command.name));
        let mut choices = command.choices();
        let choice = choices
            .find(|choice| choice.name == name)
            .ok_or_else(unknown)?;
        if !choice.repeats && self.has(name) {
            return Err(Failure::argument(format!("{name} is given twice")));
        }
        let value = value_of(choice, attached, args)?;
        self.values.push((choice.name, value));
        Ok(())
    }

    /// Takes the arguments that are not options; the last name of a command
    /// that ends in dots takes all that are left.
    fn take_arguments(&mut self, command: &Command, plain: &[&str]) -> Result<(), Failure> {
        let mut plain = plain.iter().copied();
        for argument in command.arguments {
            let missing = || {
                let (name, about) = (argument.name, argument.about);
                Failure::argument(format!("{name} is missing ({about})"))
            };
            let mut text = plain.next().ok_or_else(missing)?.to_string();
            if argument.name.ends_with("..") {
                for more in plain.by_ref() {
                    text = format!("{text} {more}");
                }
            }
            self.values.push((argument.name, text));
        }
        match plain.next() {
            Some(text) => Err(Failure::surplus(text)),
            None => Ok(()),
        }
    }

    /// Every value of this name, in turn.
    pub fn all<'a>(&'a self, name: &'a str) -> impl Iterator<Item = Text<'a>> {
        let values = self.values.iter();
        values
            .filter(move |(given, _)| *given == name)
            .map(move |(_, text)| Text { name, text })
    }

    /// Every value of these names, in the order typed.
    pub fn in_turn<'a>(&'a self, names: &'a [&str]) -> impl Iterator<Item = Text<'a>> {
        let values = self.values.iter();
        values
            .filter(|(given, _)| names.contains(given))
            .map(|(name, text)| Text { name, text })
    }

    /// Whether the option is given.
    pub fn has(&self, name: &str) -> bool {
        self.option(name).is_some()
    }

    /// The value of the option, if it is given.
    pub fn option<'a>(&'a self, name: &'a str) -> Option<Text<'a>> {
        self.all(name).next()
    }

    /// An argument that the command needs.
    pub fn argument<'a>(&'a self, name: &'a str) -> Text<'a> {
        self.option(name).expect("the command lists its arguments")
    }

    /// Fails on two options that exclude each other.
    pub fn at_most_one<const N: usize>(&self, names: [&str; N]) -> Result<(), Failure> {
        let mut given = names.into_iter().filter(|name| self.has(name));
        if let (Some(one), Some(other)) = (given.next(), given.next()) {
            let problem = format!("{one} and {other} exclude each other");
            return Err(Failure::argument(problem));
        }
        Ok(())
    }
}

/// The value of an option: the attached one, or else the next argument. It is
/// empty if the option has none.
fn value_of(
    choice: &Choice,
    attached: Option<&str>,
    args: &mut Iter<'_, String>,
) -> Result<String, Failure> {
    let name = choice.name;
    let Some(expected) = choice.value else {
        return match attached {
            Some(_) => Err(Failure::argument(format!("{name} takes no value"))),
            None => Ok(String::new()),
        };
    };
    let next = || args.next().map(String::as_str);
    let value = attached.or_else(next);
    match value.filter(|value| !value.starts_with(OPTION)) {
        Some(value) => Ok(value.to_string()),
        None => Err(Failure::argument(format!("{name} needs {expected}"))),
    }
}

impl<'a> Text<'a> {
    /// A part of another, with a name of its own.
    pub fn part(name: &'a str, text: &'a str) -> Self {
        Text { name, text }
    }

    /// The name that it was given by.
    pub fn name(&self) -> &'a str {
        self.name
    }

    /// The text itself.
    pub fn text(&self) -> &'a str {
        self.text
    }

    /// One number.
    pub fn number<T: TryFrom<u64>>(&self, base: Base) -> Result<T, Failure> {
        let read = base.read(self.text);
        read.ok_or_else(|| unexpected(self.name, self.text, &base.expected::<T>()))
    }

    /// Numbers, with commas or spaces between them.
    pub fn numbers<T: TryFrom<u64>>(&self, base: Base) -> Result<Vec<T>, Failure> {
        let mut numbers = Vec::new();
        for text in entries(self.text) {
            let entry = format!("entry {} of {}", numbers.len(), self.name);
            let name = entry.as_str();
            numbers.push(Text { name, text }.number(base)?);
        }
        Ok(numbers)
    }

    /// The same, where there is at least one.
    pub fn one_or_more<T: TryFrom<u64>>(&self, base: Base) -> Result<Vec<T>, Failure> {
        match entries(self.text).count() {
            0 | 1 => Ok(vec![self.number(base)?]),
            _ => self.numbers(base),
        }
    }

    /// Two numbers with these names, and an equals sign between them.
    pub fn pair<T: TryFrom<u64>, U: TryFrom<u64>>(
        &self,
        names: [&str; 2],
        bases: [Base; 2],
    ) -> Result<(T, U), Failure> {
        let Some((one, other)) = self.text.split_once('=') else {
            return Err(unexpected(self.name, self.text, &names.join("=")));
        };
        let [name, other_name] = names.map(|name| format!("{name} of {}", self.name));
        let (name, text) = (name.as_str(), one);
        let one = Text { name, text }.number(bases[0])?;
        let (name, text) = (other_name.as_str(), other);
        let other = Text { name, text }.number(bases[1])?;
        Ok((one, other))
    }
}

/// The entries of a list; where none stands between two commas, it is empty.
fn entries(text: &str) -> impl Iterator<Item = &str> {
    let parts = text.split(',').filter(|_| !text.trim().is_empty());
    parts.flat_map(|part| {
        let empty = part.trim().is_empty().then_some("");
        part.split_whitespace().chain(empty)
    })
}

/// The failure of an argument that was expected to be something else.
pub fn unexpected(name: &str, text: &str, expected: &str) -> Failure {
    Failure::argument(format!("{name} is {text:?}, expected {expected}"))
}

#[cfg(test)]
mod tests {
    use super::*;

    fn numbers(text: &str) -> Result<Vec<u8>, String> {
        let name = "LIST";
        let numbers = Text { name, text }.numbers(Base::Decimal);
        numbers.map_err(|failure| failure.to_string())
    }

    #[test]
    fn lists_have_commas_or_spaces() {
        for text in ["1,2,3", "1 2 3", " 1, 2 ,3 ", "1,2\t3\n"] {
            assert_eq!(numbers(text), Ok(vec![1, 2, 3]), "{text:?}");
        }
        for text in ["", " "] {
            assert_eq!(numbers(text), Ok(vec![]), "{text:?}");
        }
    }

    #[test]
    fn an_entry_that_is_no_number_is_named() {
        for (text, entry) in [
            ("1,,2", 1),
            (",1", 0),
            ("1,", 1),
            ("1 x", 1),
            ("7,8,256", 2),
        ] {
            let problem = numbers(text).unwrap_err();
            let named = format!("entry {entry} of LIST is ");
            assert!(problem.contains(&named), "{text:?}: {problem}");
        }
    }
}
