//! What a command line is answered with.

use crate::failure::{Failure, STATUSES};
use std::fs;
use std::io::{self, ErrorKind, Write};
use std::process::ExitCode;

/// What a command writes, and how it ends then.
pub struct Answer {
    /// To the standard output.
    pub output: String,
    /// To the file of this name.
    pub file: Option<(String, String)>,
    /// The exit status once all is written, one of [`STATUSES`].
    pub status: u8,
}

impl Answer {
    /// Output alone.
    pub fn of(output: String) -> Self {
        let file = None;
        let (status, _) = STATUSES[0];
        Answer {
            output,
            file,
            status,
        }
    }

    /// Output on controls that do not move every word alike.
    pub fn unalike(output: String) -> Self {
        let (status, _) = STATUSES[4];
        Answer {
            status,
            ..Answer::of(output)
        }
    }

    /// Writes the file, then the output, and answers the exit status. A reader
    /// that has seen enough of the output may close it.
    pub fn deliver(self) -> Result<ExitCode, Failure> {
        if let Some((name, contents)) = self.file {
            let unwritten = |error| Failure::Unwritten(format!("{name:?}"), error);
            fs::write(&name, contents).map_err(unwritten)?;
        }
        let mut output = io::stdout().lock();
        let written = output
            .write_all(self.output.as_bytes())
            .and_then(|()| output.flush());
        match written {
            Err(error) if error.kind() != ErrorKind::BrokenPipe => {
                Err(Failure::Unwritten("the standard output".to_string(), error))
            }
            _ => Ok(self.status.into()),
        }
    }
}
