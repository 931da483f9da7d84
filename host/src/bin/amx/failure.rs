//! How the command ends, and why it does not go on.
use crate::json;
use amx::{FileFault, ReadError, text::TextError};
use std::{
    fmt,
    io::{self, ErrorKind},
    process::ExitCode,
};

/// The exit statuses, which `amx --help` tells. The discriminant is the status.
#[derive(Clone, Copy, Debug, PartialEq, Eq)]
pub enum Status {
    Ran = 0,
    /// `diff`: the two part.
    Differ = 1,
    Usage = 2,
    /// A file cannot be read or written.
    File = 3,
    /// A trace file is refused.
    Refused = 4,
    /// A text has an error.
    Text = 5,
    /// `--strict`: a step was refused or a no-op.
    Strict = 6,
}

impl From<Status> for ExitCode {
    fn from(status: Status) -> Self {
        ExitCode::from(status as u8)
    }
}

/// Why a command does not go on.
#[derive(Debug)]
pub enum Failure {
    Usage(String),
    /// A file, by its name, cannot be read or written.
    File(String, String),
    /// A trace file, by its name, is refused.
    Refused(String, FileFault),
    /// A text, by its name, has an error.
    Text(String, TextError),
    /// Standard output cannot be written.
    Output(io::Error),
}

impl Failure {
    pub fn of_file(name: &str, error: impl fmt::Display) -> Self {
        Failure::File(name.to_owned(), error.to_string())
    }

    pub fn of_reading(name: &str, error: ReadError) -> Self {
        match error {
            ReadError::Refused(fault) => Failure::Refused(name.to_owned(), fault),
            error => Failure::of_file(name, error),
        }
    }

    pub fn status(&self) -> Status {
        match self {
            Failure::Usage(_) => Status::Usage,
            Failure::File(..) | Failure::Output(_) => Status::File,
            Failure::Refused(..) => Status::Refused,
            Failure::Text(..) => Status::Text,
        }
    }

    /// Why a trace file is refused, where it is.
    pub fn fault(&self) -> Option<FileFault> {
        match self {
            Failure::Refused(_, fault) => Some(*fault),
            _ => None,
        }
    }

    pub fn json(&self) -> String {
        format!("{{\"status\":{},\"words\":{}}}", self.status() as u8, json::string(&self.to_string()))
    }

    /// Whoever reads standard output may stop reading, and is told no more.
    pub fn is_silent(&self) -> bool {
        matches!(self, Failure::Output(error) if error.kind() == ErrorKind::BrokenPipe)
    }
}

impl From<io::Error> for Failure {
    fn from(error: io::Error) -> Self {
        Failure::Output(error)
    }
}

impl fmt::Display for Failure {
    fn fmt(&self, f: &mut fmt::Formatter) -> fmt::Result {
        match self {
            Failure::Usage(message) => f.write_str(message),
            Failure::File(name, error) => write!(f, "{name}: {error}"),
            Failure::Refused(name, fault) => write!(f, "{name}: {fault:#}"),
            Failure::Text(name, error) => write!(f, "{name}, {error}"),
            Failure::Output(error) => write!(f, "standard output: {error}"),
        }
    }
}
