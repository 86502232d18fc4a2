//! What ends a run: wrong usage (exit status 2), or a refusal or failure (1), in words that name the file and the place.
use std::fmt::{self, Display};
use std::io;
use std::path::Path;

pub type Result<T> = std::result::Result<T, Error>;

#[derive(Debug)]
pub enum Error {
    Usage(String),
    Failed(String),
}

impl Error {
    pub fn status(&self) -> u8 {
        match self {
            Error::Usage(_) => 2,
            Error::Failed(_) => 1,
        }
    }
}

impl Display for Error {
    fn fmt(&self, to: &mut fmt::Formatter<'_>) -> fmt::Result {
        match self {
            Error::Usage(text) | Error::Failed(text) => to.write_str(text),
        }
    }
}

pub fn usage<T>(text: impl Into<String>) -> Result<T> {
    Err(Error::Usage(text.into()))
}

pub fn failed<T>(text: impl Into<String>) -> Result<T> {
    Err(Error::Failed(text.into()))
}

/// What the system says of a file.
pub fn at(name: impl Display) -> impl FnOnce(io::Error) -> Error {
    move |error| Error::Failed(format!("{name}: {}", plain(&error)))
}

/// What the system says of a path.
pub fn at_path(path: &Path) -> impl FnOnce(io::Error) -> Error + '_ {
    at(path.display())
}

/// The system's words without its number.
pub fn plain(error: &io::Error) -> String {
    match error.kind() {
        io::ErrorKind::BrokenPipe => "closed by its reader".into(),
        io::ErrorKind::UnexpectedEof => "ends too early: the file is cut".into(),
        _ => {
            let text = error.to_string();
            match text.find(" (os error") {
                Some(end) => text[..end].to_string(),
                None => text,
            }
        }
    }
}

/// A line to standard error. That it cannot be written is no reason to stop.
pub fn say(text: impl Display) {
    use io::Write;
    let _ = writeln!(io::stderr(), "{text}");
}
